//! Finds the proved static libraries of the repository.

use std::path::Path;

/// The libraries; each has its C functions as its only global symbols, so that both can be linked.
const LIBRARIES: [&str; 2] = ["bufshani_c", "explore_c"];

fn main() {
    println!("cargo:rustc-check-cfg=cfg(proved)");
    if std::env::var_os("CARGO_FEATURE_PLAIN_ONLY").is_some() {
        return;
    }
    for library in LIBRARIES {
        let archive = format!("../crates/{library}/out/lib{library}.a");
        println!("cargo:rerun-if-changed={archive}");
        let Ok(found) = Path::new(&archive).canonicalize() else {
            eprintln!("run rt lib in crates/{library} first");
            std::process::exit(1);
        };
        let folder = found.parent().unwrap_or(&found).display();
        println!("cargo:rustc-link-search=native={folder}");
        println!("cargo:rustc-link-lib=static={library}");
    }
    println!("cargo:rustc-cfg=proved");
}

//! Comparison of both sides with a folder of test vectors.

use crate::generate::explorations::Limits;
use crate::plain::programs::{close_text, explore_text, run_text};
use crate::proved;
use std::collections::{BTreeMap, BTreeSet};
use std::fs;
use std::path::{Path, PathBuf};

/// The four words of a run.
pub struct Words {
    pub schedule: Vec<u8>,
    pub values: Vec<i32>,
    pub most: usize,
    pub log: usize,
}

/// Compares all of a folder, with answers that lists of moved ones put in place of its own; whether
/// nothing differs.
pub fn compare(dir: &Path, lists: &[&str]) -> Result<bool, String> {
    let mut moved = Moved::default();
    for list in lists {
        moved.add(Path::new(list))?;
    }
    let (mut closings, mut runs, mut explorations, mut cuts, mut differ) = (0, 0, 0, 0, 0);
    for path in sorted(dir)? {
        let extension = path
            .extension()
            .and_then(|e| e.to_str())
            .unwrap_or_default();
        let same = if extension == "close" {
            closings += 1;
            closing_same(&path, &mut moved)?
        } else if extension.starts_with("run") {
            runs += 1;
            run_same(&path, &mut moved)?
        } else if extension.starts_with("explore") {
            explorations += 1;
            exploration_same(&path, &mut moved)?
        } else if extension == "cuts" {
            let text = bytes_of(&path.with_extension("txt"))?;
            cuts += text.len() + 1;
            cuts_same(&path, &text)?
        } else {
            true
        };
        if !same {
            differ += 1;
            println!("differs: {}", path.display());
        }
    }
    for vector in moved.left() {
        differ += 1;
        println!("moved, but not there: {vector}");
    }
    let taken = moved.met.len();
    println!(
        "closings={closings} runs={runs} explorations={explorations} cuts={cuts} moved={taken} differ={differ}"
    );
    Ok(differ == 0 && closings + runs + explorations + cuts > 0)
}

/// Answers that moved, by the name of their vector: the first line as it was, and the line now.
#[derive(Default)]
struct Moved {
    lines: BTreeMap<String, (String, String)>,
    met: BTreeSet<String>,
}

impl Moved {
    /// Adds a list with a line `NAME EXTENSION: BEFORE -> NOW` for each answer; a later list goes on
    /// from an earlier one.
    fn add(&mut self, list: &Path) -> Result<(), String> {
        let text = fs::read_to_string(list).map_err(|e| format!("{}: {e}", list.display()))?;
        for line in text.lines() {
            let (vector, before, now) =
                moved_line(line).ok_or(format!("{}: '{line}'", list.display()))?;
            match self.lines.get_mut(&vector) {
                Some((_, last)) if *last == before => *last = now,
                Some(_) => return Err(format!("{}: '{line}'", list.display())),
                None => drop(self.lines.insert(vector, (before, now))),
            }
        }
        Ok(())
    }

    /// What is expected of a vector now.
    fn expected(&mut self, path: &Path, expected: Vec<u8>) -> Result<Vec<u8>, String> {
        let name = path.file_name().unwrap_or_default().to_string_lossy();
        let Some((before, now)) = self.lines.get(&*name) else {
            return Ok(expected);
        };
        if !expected.starts_with(format!("{before}\n").as_bytes()) {
            return Err(format!("{name} is not '{before}' before it moves"));
        }
        self.met.insert(name.into_owned());
        Ok(format!("{now}\n").into_bytes())
    }

    /// The vectors that moved and were not met.
    fn left(&self) -> impl Iterator<Item = &String> {
        self.lines.keys().filter(|name| !self.met.contains(*name))
    }
}

fn moved_line(line: &str) -> Option<(String, String, String)> {
    let (vector, answers) = line.split_once(": ")?;
    let (before, now) = answers.split_once(" -> ")?;
    Some((vector.replace(' ', "."), before.into(), now.into()))
}

fn sorted(dir: &Path) -> Result<Vec<PathBuf>, String> {
    let entries = fs::read_dir(dir).map_err(|e| format!("{}: {e}", dir.display()))?;
    let mut paths: Vec<PathBuf> = entries.flatten().map(|entry| entry.path()).collect();
    paths.sort();
    Ok(paths)
}

fn bytes_of(path: &Path) -> Result<Vec<u8>, String> {
    fs::read(path).map_err(|e| format!("{}: {e}", path.display()))
}

fn closing_same(path: &Path, moved: &mut Moved) -> Result<bool, String> {
    let text = bytes_of(&path.with_extension("txt"))?;
    let expected = moved.expected(path, bytes_of(path)?)?;
    Ok(both(&expected, |by_proved, out| match by_proved {
        true => proved::close(&text, out),
        false => close_text(&text, out),
    }))
}

/// What the closing program says of every cut of a text: for each length its refusal, or `accepted`.
fn cuts_same(path: &Path, text: &[u8]) -> Result<bool, String> {
    let mut out = vec![0; 1 << 16];
    let expected = bytes_of(path)?;
    Ok([false, true].iter().all(|&by_proved| {
        let mut lines = Vec::new();
        for len in 0..=text.len() {
            let cut = &text[..len];
            let printed = match by_proved {
                true => proved::close(cut, &mut out),
                false => close_text(cut, &mut out),
            };
            let answer = match out[..printed].starts_with(b"refused=") {
                true => &out[..printed],
                false => b"accepted\n",
            };
            lines.extend_from_slice(format!("{len} ").as_bytes());
            lines.extend_from_slice(answer);
        }
        lines == expected
    }))
}

fn run_same(path: &Path, moved: &mut Moved) -> Result<bool, String> {
    let text = bytes_of(&path.with_extension("txt"))?;
    let (line, expected) = divided(path)?;
    let expected = moved.expected(path, expected)?;
    let words = words_of(&line).ok_or(format!("{}: words of the run", path.display()))?;
    let Words {
        schedule,
        values,
        most,
        log,
    } = words;
    Ok(both(&expected, |by_proved, out| {
        let mut log = vec![0; log];
        match by_proved {
            true => proved::run(&text, &schedule, &values, most, &mut log, out),
            false => run_text(&text, &schedule, &values, most, &mut log, out),
        }
    }))
}

fn exploration_same(path: &Path, moved: &mut Moved) -> Result<bool, String> {
    let text = bytes_of(&path.with_extension("txt"))?;
    let (line, expected) = divided(path)?;
    let expected = moved.expected(path, expected)?;
    let limits = limits_of(&line).ok_or(format!("{}: depth and bound", path.display()))?;
    let Limits { depth, bound } = limits;
    Ok(both(&expected, |by_proved, out| match by_proved {
        true => proved::explore(&text, depth, bound, out),
        false => explore_text(&text, depth, bound, out),
    }))
}

/// Whether both sides print what is expected.
fn both(expected: &[u8], print: impl Fn(bool, &mut [u8]) -> usize) -> bool {
    let mut out = vec![0; 1 << 23];
    [false, true].iter().all(|&by_proved| {
        let len = print(by_proved, &mut out);
        out[..len] == *expected
    })
}

/// The first line of a vector, and the rest.
fn divided(path: &Path) -> Result<(String, Vec<u8>), String> {
    let mut bytes = bytes_of(path)?;
    let end = bytes
        .iter()
        .position(|&b| b == b'\n')
        .ok_or("no first line")?;
    let rest = bytes.split_off(end + 1);
    let line = String::from_utf8_lossy(&bytes[..end]).into_owned();
    Ok((line, rest))
}

/// The words of a run's first line.
fn words_of(line: &str) -> Option<Words> {
    let mut words = line.split(' ');
    Some(Words {
        schedule: list(words.next()?)?,
        values: list(words.next()?)?,
        most: words.next()?.parse().ok()?,
        log: words.next()?.parse().ok()?,
    })
}

/// The words of an exploration's first line.
fn limits_of(line: &str) -> Option<Limits> {
    let (depth, bound) = line.split_once(' ')?;
    Some(Limits {
        depth: depth.parse().ok()?,
        bound: bound.parse().ok()?,
    })
}

fn list<T: std::str::FromStr>(word: &str) -> Option<Vec<T>> {
    if word == "none" {
        return Some(Vec::new());
    }
    word.split(',').map(|item| item.parse().ok()).collect()
}

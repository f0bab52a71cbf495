//! The proved libraries: safe wrappers of their C functions. A lent slice crosses as its pointer and
//! its length. Without the libraries (`--features plain-only`) the plain implementation stands in.

#[cfg(proved)]
use crate::plain::fault::{Fault, Refusal};

/// Whether the proved libraries are linked.
pub const LINKED: bool = cfg!(proved);

#[cfg(proved)]
mod ffi {
    extern "C" {
        /// The number of the refusal times 2^32 plus its line; 0 if the text is accepted.
        pub fn bufshani_read(text: *const u8, text_len: usize) -> u64;

        /// The length of the text written; on refusal as `bufshani_read`.
        pub fn bufshani_write(
            text: *const u8,
            text_len: usize,
            out: *mut u8,
            out_len: usize,
        ) -> u64;

        /// The length of what the closing program prints.
        pub fn bufshani_close(
            text: *const u8,
            text_len: usize,
            out: *mut u8,
            out_len: usize,
        ) -> usize;

        /// The length of the report that the `run` program prints, in the log's first 800,000 bytes.
        pub fn bufshani_run(
            text: *const u8,
            text_len: usize,
            schedule: *const u8,
            schedule_len: usize,
            values: *const i32,
            values_len: usize,
            most: usize,
            log: *mut u8,
            log_len: usize,
            out: *mut u8,
            out_len: usize,
        ) -> usize;

        /// A run with no report: the stop number times 2^32 plus the steps completed, modulo 2^32; on
        /// refusal as `bufshani_read`.
        pub fn bufshani_steps(
            text: *const u8,
            text_len: usize,
            schedule: *const u8,
            schedule_len: usize,
            values: *const i32,
            values_len: usize,
            most: usize,
            log: *mut u8,
            log_len: usize,
        ) -> u64;

        /// The length of what the `explore` program prints.
        pub fn bufshani_explore(
            text: *const u8,
            text_len: usize,
            depth: usize,
            bound: u64,
            out: *mut u8,
            out_len: usize,
        ) -> usize;
    }
}

/// The refusal that an answer stands for, if it is one; a run's stop is none.
#[cfg(proved)]
fn refusal(answer: u64) -> Option<Refusal> {
    let number = (answer >> 32) as u8;
    let line = answer as u32;
    let stops = Fault::NoTask.number()..=Fault::Toss.number();
    (number != 0 && !stops.contains(&number)).then_some(Refusal { number, line })
}

/// Reads a text.
#[cfg(proved)]
pub fn read(text: &[u8]) -> Result<(), Refusal> {
    let answer = unsafe { ffi::bufshani_read(text.as_ptr(), text.len()) };
    refusal(answer).map_or(Ok(()), Err)
}

/// Reads a text and writes its table; the length written.
#[cfg(proved)]
pub fn write(text: &[u8], out: &mut [u8]) -> Result<usize, Refusal> {
    let answer =
        unsafe { ffi::bufshani_write(text.as_ptr(), text.len(), out.as_mut_ptr(), out.len()) };
    refusal(answer).map_or(Ok(answer as usize), Err)
}

/// Writes what the closing program prints, as far as the buffer reaches; its whole length.
#[cfg(proved)]
pub fn close(text: &[u8], out: &mut [u8]) -> usize {
    unsafe { ffi::bufshani_close(text.as_ptr(), text.len(), out.as_mut_ptr(), out.len()) }
}

/// Writes what the `run` program prints, as far as the buffer reaches; its whole length.
#[cfg(proved)]
pub fn run(
    text: &[u8],
    schedule: &[u8],
    values: &[i32],
    most: usize,
    log: &mut [u8],
    out: &mut [u8],
) -> usize {
    unsafe {
        ffi::bufshani_run(
            text.as_ptr(),
            text.len(),
            schedule.as_ptr(),
            schedule.len(),
            values.as_ptr(),
            values.len(),
            most,
            log.as_mut_ptr(),
            log.len(),
            out.as_mut_ptr(),
            out.len(),
        )
    }
}

/// The steps completed, of less than 2^32, and the stop number of a run with no report.
#[cfg(proved)]
pub fn steps(
    text: &[u8],
    schedule: &[u8],
    values: &[i32],
    most: usize,
    log: &mut [u8],
) -> Result<(usize, u8), Refusal> {
    let answer = unsafe {
        ffi::bufshani_steps(
            text.as_ptr(),
            text.len(),
            schedule.as_ptr(),
            schedule.len(),
            values.as_ptr(),
            values.len(),
            most,
            log.as_mut_ptr(),
            log.len(),
        )
    };
    let ran = (answer as u32 as usize, (answer >> 32) as u8);
    refusal(answer).map_or(Ok(ran), Err)
}

/// Writes what the `explore` program prints, as far as the buffer reaches; its whole length.
#[cfg(proved)]
pub fn explore(text: &[u8], depth: usize, bound: u64, out: &mut [u8]) -> usize {
    unsafe {
        ffi::bufshani_explore(
            text.as_ptr(),
            text.len(),
            depth,
            bound,
            out.as_mut_ptr(),
            out.len(),
        )
    }
}

#[cfg(not(proved))]
pub use stand_in::*;

#[cfg(not(proved))]
mod stand_in {
    use crate::plain::{fault::Refusal, programs};

    pub use programs::{
        close_text as close, explore_text as explore, read_text as read, run_text as run,
        write_text as write,
    };

    pub fn steps(
        text: &[u8],
        schedule: &[u8],
        values: &[i32],
        most: usize,
        log: &mut [u8],
    ) -> Result<(usize, u8), Refusal> {
        let answer = programs::steps_text(text, schedule, values, most, log)?;
        Ok((answer.steps, answer.stop))
    }
}

//! What the examples share: how one reads, and how it ends. What fails is said in one
//! line on standard error, and the exit status is then 1; where nobody reads the
//! output any more, nothing is said.

#![allow(dead_code, reason = "no example uses all of it")]

use std::ffi::OsStr;
use std::fmt::Display;
use std::io::{Error, ErrorKind, Read, StdoutLock, Write, stderr, stdin, stdout};
use std::process::ExitCode;
use std::sync::atomic::{AtomicBool, Ordering::Relaxed};

pub type Output = StdoutLock<'static>;

/// Why an example ends early.
pub enum Failure {
    /// For what is said of it.
    Said(String),
    /// Standard output cannot be written.
    Unwritten(Error),
}

pub type Outcome<T = ()> = Result<T, Failure>;

/// Of an error that `?` hands on as it is: only writing leaves one so.
impl From<Error> for Failure {
    fn from(error: Error) -> Failure {
        Failure::Unwritten(error)
    }
}

/// The end of an example, with what is said of it.
pub fn failed<T>(what: impl Into<String>) -> Outcome<T> {
    Err(Failure::Said(what.into()))
}

/// The core answered with the number of a refusal.
pub fn refused(number: u32) -> Failure {
    Failure::Said(format!("refused with {number}"))
}

/// Runs an example, and sees that all it wrote has left the program.
pub fn run(example: impl FnOnce(&mut Output) -> Outcome) -> ExitCode {
    match written_by(example) {
        Ok(()) => return ExitCode::SUCCESS,
        Err(Failure::Unwritten(error)) if error.kind() == ErrorKind::BrokenPipe => {}
        Err(Failure::Unwritten(error)) => say(format!("cannot write standard output: {error}")),
        Err(Failure::Said(what)) => say(what),
    }
    ExitCode::FAILURE
}

fn written_by(example: impl FnOnce(&mut Output) -> Outcome) -> Outcome {
    if OUTPUT_CLOSED.load(Relaxed) {
        return failed("cannot write standard output: it is closed");
    }
    let mut output = stdout().lock();
    example(&mut output)?;
    Ok(output.flush()?)
}

/// Where standard error cannot be written either, the exit status is left.
fn say(what: String) {
    let _ = writeln!(stderr(), "{}: {what}", env!("CARGO_CRATE_NAME"));
}

// ---- Reading ----------------------------------------------------------------------

/// All bytes of standard input.
pub fn input() -> Outcome<Vec<u8>> {
    let mut bytes = Vec::new();
    open_input()?;
    let read = stdin().read_to_end(&mut bytes);
    read.map_err(|error| unread("standard input", error))?;
    Ok(bytes)
}

/// The lines of standard input, as they come.
pub fn input_lines() -> Outcome<impl Iterator<Item = Outcome<String>>> {
    open_input()?;
    let unread_line = |error| unread("standard input", error);
    Ok(stdin().lines().map(move |line| line.map_err(unread_line)))
}

/// The text of a file.
pub fn text_of(path: &OsStr) -> Outcome<String> {
    std::fs::read_to_string(path).map_err(|error| unread(&format!("{path:?}"), error))
}

/// The bytes that hexadecimal digits stand for, two digits each; blanks are ignored.
pub fn bytes_of(text: &str) -> Option<Vec<u8>> {
    let digits = text.chars().filter(|character| !character.is_whitespace());
    let digits: Vec<_> = digits
        .map(|digit| digit.to_digit(16))
        .collect::<Option<_>>()?;
    let (pairs, cut) = digits.as_chunks::<2>();
    let bytes = pairs.iter().map(|&[high, low]| (high << 4 | low) as u8);
    cut.is_empty().then(|| bytes.collect())
}

fn open_input() -> Outcome {
    if INPUT_CLOSED.load(Relaxed) {
        return Err(unread("standard input", "it is closed"));
    }
    Ok(())
}

fn unread(what: &str, why: impl Display) -> Failure {
    Failure::Said(format!("cannot read {what}: {why}"))
}

// ---- Before main ------------------------------------------------------------------

/// Whether they were closed when the program began. Before `main` the standard library
/// opens /dev/null in their place: all that is written there is lost without an error.
static INPUT_CLOSED: AtomicBool = AtomicBool::new(false);
static OUTPUT_CLOSED: AtomicBool = AtomicBool::new(false);

// SAFETY: what stands in this section is called before `main`, as a C function.
#[used]
#[unsafe(link_section = ".init_array")]
static BEFORE_MAIN: extern "C" fn() = look_at_descriptors;

extern "C" fn look_at_descriptors() {
    INPUT_CLOSED.store(is_closed(0), Relaxed);
    OUTPUT_CLOSED.store(is_closed(1), Relaxed);
}

fn is_closed(descriptor: i32) -> bool {
    const F_GETFD: i32 = 1;
    unsafe extern "C" {
        fn fcntl(descriptor: i32, command: i32, ...) -> i32;
    }
    // SAFETY: the command takes no third argument, and changes nothing.
    unsafe { fcntl(descriptor, F_GETFD) < 0 }
}

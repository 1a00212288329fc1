//! Voidosier from Rust: voidosier_run of include/voidosier.h, safe.

use std::error::Error;
use std::fmt;

/// The bytes of stack that a call needs at most.
pub const STACK: usize = 262_144;
/// The bytes that each line of a fault fits in.
const FAULT_ROOM: usize = 128;

extern "C" {
    fn voidosier_run(
        words: *const u8,
        words_size: usize,
        input: *const u8,
        input_size: usize,
        out: *mut u8,
        out_room: usize,
        out_length: &mut usize,
        err: *mut u8,
        err_room: usize,
        err_length: &mut usize,
        floods: &mut u64,
    ) -> u8;
}

/// How a call ended.
#[derive(Clone, Copy, Debug, PartialEq, Eq)]
pub enum Status {
    Done,
    /// The words or the input have a fault.
    Fault,
    /// The buffer has a front of the answer.
    NoRoom,
    NoMemory,
    /// A word has a NUL byte.
    NoWords,
}

impl Status {
    fn of(number: u8) -> Status {
        match number {
            0 => Status::Done,
            2 => Status::Fault,
            4 => Status::NoRoom,
            5 => Status::NoMemory,
            6 => Status::NoWords,
            _ => unreachable!("voidosier_run ends with no status {number}"),
        }
    }
}

/// What one call did.
#[derive(Clone, Debug, PartialEq, Eq)]
pub struct Call {
    pub status: Status,
    /// How many bytes of the buffer were written.
    pub length: usize,
    /// The line of the fault.
    pub fault: String,
    /// How many floods were made, each of which finds all places of one piece in one field.
    pub floods: u64,
}

/// Answers a command line in a buffer of the caller's.
pub fn call(words: &[&str], input: &[u8], out: &mut [u8]) -> Call {
    let mut spelled = Vec::new();
    if words.iter().any(|word| word.contains('\0')) {
        return Call {
            status: Status::NoWords,
            length: 0,
            fault: String::new(),
            floods: 0,
        };
    }
    for word in words {
        spelled.extend_from_slice(word.as_bytes());
        spelled.push(0);
    }
    let mut err = [0; FAULT_ROOM];
    let (mut length, mut err_length, mut floods) = (0, 0, 0);
    // SAFETY: each pointer has the bytes that are said, none is null, and what is written to overlaps with nothing.
    let status = unsafe {
        voidosier_run(
            spelled.as_ptr(),
            spelled.len(),
            input.as_ptr(),
            input.len(),
            out.as_mut_ptr(),
            out.len(),
            &mut length,
            err.as_mut_ptr(),
            err.len(),
            &mut err_length,
            &mut floods,
        )
    };
    let fault = String::from_utf8_lossy(&err[..err_length]).into_owned();
    Call {
        status: Status::of(status),
        length,
        fault,
        floods,
    }
}

/// Why there is no answer.
#[derive(Clone, Debug, PartialEq, Eq)]
pub enum Failed {
    /// The words or the input have the fault of this line.
    Fault(String),
    NoMemory,
    /// A word has a NUL byte.
    NoWords,
}

impl fmt::Display for Failed {
    fn fmt(&self, f: &mut fmt::Formatter<'_>) -> fmt::Result {
        match self {
            Failed::Fault(line) => f.write_str(line.trim_end()),
            Failed::NoMemory => f.write_str("no memory"),
            Failed::NoWords => f.write_str("a word has a NUL byte"),
        }
    }
}

impl Error for Failed {}

/// The whole answer of a command line.
pub fn run(words: &[&str], input: &[u8]) -> Result<Vec<u8>, Failed> {
    let mut out = vec![0; 65_536];
    loop {
        let done = call(words, input, &mut out);
        match done.status {
            Status::Done => {
                out.truncate(done.length);
                return Ok(out);
            }
            Status::NoRoom => out.resize(out.len() * 4, 0),
            Status::Fault => return Err(Failed::Fault(done.fault)),
            Status::NoMemory => return Err(Failed::NoMemory),
            Status::NoWords => return Err(Failed::NoWords),
        }
    }
}

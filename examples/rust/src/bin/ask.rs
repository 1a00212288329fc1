//! Asks the library five questions, and prints each answer.
//!
//!     cargo run --offline --bin ask
//!
//! Before an answer stands a line with its status, the bytes of the answer and of the line of a fault, and the floods.

use std::error::Error;
use std::io::{self, Write};
use voidosier::{call, run, Status};

const OPENER: &str = "v115@9gD8DeF8CeG8BeH8CeC8JeAgH";

/// Asks with a buffer of so many bytes, and prints the answer; behind a front of one a newline.
fn ask(
    to: &mut impl Write,
    name: &str,
    words: &[&str],
    input: &[u8],
    room: usize,
) -> io::Result<Status> {
    let mut out = vec![0; room];
    let done = call(words, input, &mut out);
    let (length, fault_length) = (done.length, done.fault.len());
    let status = match done.status {
        Status::Done => 0,
        Status::Fault => 2,
        Status::NoRoom => 4,
        Status::NoMemory => 5,
        Status::NoWords => 6,
    };
    writeln!(
        to,
        "{name}: status {status}, {length} bytes, fault of {fault_length} bytes, floods {}",
        done.floods
    )?;
    to.write_all(&out[..length])?;
    to.write_all(done.fault.as_bytes())?;
    if done.status == Status::NoRoom {
        writeln!(to)?;
    }
    Ok(done.status)
}

fn main() -> Result<(), Box<dyn Error>> {
    let mut to = io::stdout().lock();
    let path = [
        "path",
        "--tetfu",
        OPENER,
        "--patterns",
        "TOI",
        "--hold",
        "avoid",
        "--keys",
        "yes",
    ];
    ask(&mut to, "path", &path, b"", 4096)?;
    let percent = [
        "percent",
        "--tetfu",
        OPENER,
        "--patterns",
        "*p4",
        "--failed",
        "2",
    ];
    ask(&mut to, "percent", &percent, b"", 4096)?;
    ask(&mut to, "decode", &["decode"], b"v115@vhBVQJAAA\n", 4096)?;
    let wrong = ["path", "--rows", "XXX?XX____", "--patterns", "I"];
    ask(&mut to, "wrong field", &wrong, b"", 4096)?;

    // Where the answer doesn't fit, what is there is a front of it, and twice the room may do.
    let long = ["path", "--tetfu", OPENER, "--patterns", "*p4"];
    let mut room = 256;
    while ask(&mut to, "long list", &long, b"", room)? == Status::NoRoom {
        room *= 2;
    }

    // `run` finds the room by itself, and a fault is an error.
    to.write_all(&run(&long, b"")?)?;
    if let Err(fault) = run(&wrong, b"") {
        writeln!(to, "{fault}")?;
    }
    Ok(())
}

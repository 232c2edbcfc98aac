//! netrev-baseline: the machine in ordinary, fast Rust without proofs, to measure against.

mod film;
mod heap;
mod lock;
mod pace;
mod recording;
mod search;
mod session;
mod step;
mod world;

use film::Film;
use recording::{Recording, PADDING};
use session::Session;
use std::ffi::OsStr;
use std::fs::File;
use std::io::{Read, Write};
use std::process::exit;

/// Steps between two copies.
const EVERY: usize = 1_024;
/// The most bytes that one read takes, as in netrev. Both programs send the replies to all lines of one read with one write.
const CHUNK: usize = 512;
const USAGE: &str = "usage: netrev-baseline check FILE, netrev-baseline run FILE, or netrev-baseline FILE";

fn fail(status: i32, text: &str) -> ! {
    eprintln!("netrev-baseline: {text}");
    exit(status)
}

/// The recording in a file. The file's text is freed.
fn recording_of(file: &OsStr) -> Recording {
    let text = File::open(file).and_then(|mut opened| {
        let mut text = Vec::with_capacity(opened.metadata()?.len() as usize + PADDING);
        opened.read_to_end(&mut text)?;
        text.resize(text.len() + PADDING, b' ');
        Ok(text)
    });
    let Ok(text) = text else { fail(3, "the file can't be read") };
    recording::read(&text).unwrap_or_else(|line| fail(1, &format!("line {line} is no line of a recording")))
}

fn film_of(file: &OsStr) -> Film {
    Film::load(recording_of(file), EVERY).unwrap_or_else(|fault| refuse(fault))
}

fn refuse(fault: film::StepFault) -> ! {
    fail(1, &format!("step {}: fault 107 reason {}", fault.step, fault.reason))
}

fn check(file: &OsStr) -> String {
    let recording = recording_of(file);
    match film::replay(&recording) {
        Ok(_) => format!("ok {} steps", recording.steps.len()),
        Err(fault) => refuse(fault),
    }
}

/// Answers lines from standard input until `quit` or the end of the input. It answers all lines of one read before the next read.
fn run(film: &Film) -> std::io::Result<()> {
    let mut session = Session::new(film);
    let (mut input, mut output) = (std::io::stdin().lock(), std::io::stdout().lock());
    let mut chunk = [0u8; CHUNK];
    let mut rest = Vec::new();
    let mut replies = Vec::new();
    loop {
        let came = input.read(&mut chunk)?;
        rest.extend_from_slice(&chunk[..came]);
        let mut begun = 0;
        let mut ended = came == 0;
        while let Some(length) = rest[begun..].iter().position(|&c| c == b'\n').filter(|_| !ended) {
            ended = session.line(&rest[begun..begun + length], &mut replies);
            begun += length + 1;
        }
        rest.drain(..begun);
        output.write_all(&replies)?;
        output.flush()?;
        replies.clear();
        if ended {
            return Ok(());
        }
    }
}

fn main() {
    let words: Vec<_> = std::env::args_os().skip(1).collect();
    match words.as_slice() {
        [word, file] if word == "check" => println!("{}", check(file)),
        [word, file] if word == "run" => {
            if run(&film_of(file)).is_err() {
                fail(3, "a stream failed")
            }
        }
        [file] => println!("{}", pace::measured(&film_of(file))),
        _ => fail(2, USAGE),
    }
}

//! The program as the tests run it. Not every test file needs all of this.
#![allow(dead_code)]

use std::io::Write;
use std::process::{Command, Stdio};

/// What the program writes to standard output.
pub fn run(words: &[&str], input: &[u8]) -> String {
    String::from_utf8(ended(words, input).output).expect("the output is text")
}

/// How a run of the program ended.
#[derive(Debug, PartialEq, Eq)]
pub struct Ended {
    pub output: Vec<u8>,
    pub errors: String,
    pub status: Option<i32>,
}

pub fn ended(words: &[&str], input: &[u8]) -> Ended {
    let mut child = Command::new(env!("CARGO_BIN_EXE_sheetplay"))
        .args(words)
        .stdin(Stdio::piped())
        .stdout(Stdio::piped())
        .stderr(Stdio::piped())
        .spawn()
        .expect("the program starts");
    let mut stdin = child.stdin.take().expect("standard input is piped");
    let input = input.to_vec();
    let writer = std::thread::spawn(move || {
        // The program may stop reading early.
        let _ = stdin.write_all(&input);
    });
    let output = child.wait_with_output().expect("the program ends");
    writer.join().expect("the input is written");
    Ended {
        output: output.stdout,
        errors: String::from_utf8(output.stderr).expect("errors are text"),
        status: output.status.code(),
    }
}

pub fn answers(script: &str) -> String {
    run(&["answers"], script.as_bytes())
}

pub const BRING_UP: &str = "!\n> 3A\n> 01 03 9A 00 21 42 03\n";

/// The answers to the last lines of a script that begins in phase Command.
pub fn in_command(preparation: &str, script: &str) -> Vec<String> {
    let text = answers(&format!("fresh\n{preparation}{BRING_UP}{script}"));
    assert!(!text.contains("bad line"), "{text}");
    text.lines()
        .filter(|line| line.starts_with('<') || !line.starts_with(['>', '!']))
        .skip(1) // the answer to Baud Rate Set
        .map(String::from)
        .collect()
}

/// The same for one frame, on the wire alone: notes are left out.
pub fn answer_to(preparation: &str, frame: &str) -> String {
    let mut lines = in_command(preparation, &format!("> {frame}\n"));
    lines.retain(|line| !line.starts_with("note"));
    lines.join("|")
}

//! Captures of sessions with random chips, and captures that were damaged.

use super::material::{Plan, Preparation, Size, chip_line, fresh_line, other_model};
use super::random::Random;
use super::{Tape, scripts};
use crate::answers::Answers;
use crate::chip::Model;
use crate::frames::LONGEST;
use crate::lines::byte_line;
use crate::player::{Player, Turn};
use crate::sheet::MOST_STEPS;
use crate::standin::StandIn;

/// A capture, and the lines that state its chip.
pub fn files(mut random: Random) -> (Vec<u8>, String) {
    let random = &mut random;
    let mut chip_lines = fresh_line(random);
    let mut tape = Tape::new(Answers::new());
    tape.line(&chip_lines);
    let model = tape.runner.chip().model();
    if random.chance(70) {
        let preparation = Preparation::random(random, model).lines();
        tape.lines(&preparation);
        chip_lines.push_str(&preparation);
    } else if model == Model::SMALL && random.chance(50) {
        // A fresh small chip is the one where nothing is stated.
        chip_lines.clear();
    }
    let chip = tape.runner.chip().clone();
    let mut host = host_lines(random, tape);
    merge(random, &mut host);
    let mut lines = capture(&host, chip);
    if random.one_in(30) {
        // The first line stays: what else would be named first is fixed
        // nowhere.
        let model = other_model(random);
        return (concatenated(random, &lines), chip_line(random, model));
    }
    for _ in 0..random.pick(&[0, 0, 1, 1, 1, 2]) {
        damage_lines(random, &mut lines);
    }
    let mut text = concatenated(random, &lines);
    for _ in 0..random.pick(&[0, 0, 0, 1]) {
        damage_text(random, &mut text);
    }
    (text, chip_lines)
}

/// What a programmer does: power-ons and bytes.
#[derive(Clone)]
enum Host {
    PowerOn,
    Send(Vec<u8>),
}

/// The lines of a session with the chip of the tape: of frames of any sort, or
/// of a play.
fn host_lines(random: &mut Random, mut tape: Tape<Answers>) -> Vec<Host> {
    // What was written so far states the chip.
    let start = tape.text.len();
    let mut frames = Vec::new();
    if random.chance(35) {
        tape.set_speed();
        tape.identify();
        frames = frames_of_a_play(random, tape.runner.chip().clone());
    } else {
        let budget = random.pick(&[20, 60, 150, 400, 900]);
        scripts::session(&mut tape, random, budget);
    }
    let mut host: Vec<Host> = tape.text[start..].lines().filter_map(Host::of_line).collect();
    // A session begins at a power-on.
    while matches!(host.first(), Some(Host::Send(_))) {
        host.remove(0);
    }
    if host.is_empty() {
        host.push(Host::PowerOn);
    }
    host.extend(frames.into_iter().map(Host::Send));
    host
}

impl Host {
    /// Of a line of a script.
    fn of_line(line: &str) -> Option<Host> {
        let bytes = match line.split_once(' ') {
            None if line == "!" => return Some(Host::PowerOn),
            Some((">", pairs)) => pairs.split(' ').map(|pair| u8::from_str_radix(pair, 16)),
            _ => return None,
        };
        Some(Host::Send(bytes.map(|byte| byte.expect("the tape has hex pairs")).collect()))
    }
}

/// The frames of a play to a chip that waits for a command.
fn frames_of_a_play(random: &mut Random, mut chip: StandIn) -> Vec<Vec<u8>> {
    let size = Size { steps: 4, code_blocks: 1, body_bytes: 800 };
    let sheet = Plan::random(random, &chip.flash, &chip.options, size).bytes();
    let (mut player, mut sums) = (Player::new(), [0; MOST_STEPS]);
    let mut frames = Vec::new();
    let mut reply = Vec::new();
    while let Ok(Turn::Frame(frame)) = player.call(chip.model(), &sheet, &reply, LONGEST, &mut sums)
    {
        reply = chip.receive_all(&frame);
        frames.push(frame);
    }
    frames
}

/// Makes one line of some that follow each other.
fn merge(random: &mut Random, host: &mut Vec<Host>) {
    let percent = random.pick(&[0, 0, 10, 50]);
    let mut at = 1;
    while at < host.len() {
        match (&host[at - 1], &host[at]) {
            (Host::Send(first), Host::Send(second)) if random.chance(percent) => {
                host[at - 1] = Host::Send([&first[..], second].concat());
                host.remove(at);
            }
            _ => at += 1,
        }
    }
}

/// The session as a capture, from the chip's own answers. Lines have their LF.
fn capture(host: &[Host], mut chip: StandIn) -> Vec<String> {
    let mut lines = Vec::new();
    for line in host {
        match line {
            Host::PowerOn => {
                chip.power_on().expect("the chip is one of the two");
                lines.push(String::from("!\n"));
            }
            Host::Send(bytes) => {
                lines.push(byte_line(">", bytes));
                let answer = chip.receive_all(bytes);
                if !answer.is_empty() {
                    lines.push(byte_line("<", &answer));
                }
            }
        }
    }
    lines
}

/// In upper case, in lower case or mixed.
fn concatenated(random: &mut Random, lines: &[String]) -> Vec<u8> {
    let case = random.below(5);
    let mut text = Vec::new();
    for byte in lines.concat().bytes() {
        let lower = case == 1 || case == 2 && random.chance(50);
        text.push(if lower { byte.to_ascii_lowercase() } else { byte });
    }
    text
}

/// A damage that leaves lines of good form, mostly.
fn damage_lines(random: &mut Random, lines: &mut Vec<String>) {
    if lines.is_empty() {
        return;
    }
    let at = random.below(lines.len());
    match random.below(12) {
        // One byte changed, of an answer or of any line.
        0..3 => change_pair(random, &mut lines[at]),
        3 => {
            lines.remove(at);
        }
        4 => {
            let line = lines[at].clone();
            lines.insert(at + 1, line);
        }
        5 => {
            let line = lines.remove(at);
            lines.insert(random.below(lines.len() + 1), line);
        }
        6 => lines.truncate(at),
        // The last answer is missing.
        7 => {
            if lines.last().is_some_and(|line| line.starts_with('<')) {
                lines.pop();
            }
        }
        // An answer where there is none, or a second one.
        8 => {
            let answer = random.pick(&["< 02 01 06 F9 03\n", "< 00\n", "!\n"]);
            lines.insert(at + 1, String::from(answer));
        }
        // An answer in two lines, or with one pair more or less.
        9 => {
            if let Some(start) = lines[at].strip_suffix(" 03\n") {
                let start = format!("{start}\n");
                lines[at] = start;
                lines.insert(at + 1, String::from("< 03\n"));
            }
        }
        10 => {
            let more = lines[at].replace('\n', " 00\n");
            lines[at] = more;
        }
        _ => {
            let line = &mut lines[at];
            line.truncate(line.len().saturating_sub(4).max(1));
            line.push('\n');
        }
    }
}

/// Changes one digit of a line, if it has pairs.
fn change_pair(random: &mut Random, line: &mut String) {
    let digits: Vec<usize> = line
        .char_indices()
        .filter(|(_, char)| char.is_ascii_hexdigit())
        .map(|(at, _)| at)
        .collect();
    if !digits.is_empty() {
        let at = random.pick(&digits);
        let digit = random.pick(&["0", "1", "6", "9", "A", "F"]);
        line.replace_range(at..at + 1, digit);
    }
}

/// A damage of the form, or of any byte.
fn damage_text(random: &mut Random, text: &mut Vec<u8>) {
    if text.is_empty() {
        return;
    }
    let at = random.below(text.len());
    // The end of a line somewhere, or the first byte of one.
    let end = text[at..].iter().position(|&byte| byte == b'\n').map_or(0, |next| at + next);
    match random.below(14) {
        0 => text[at] = random.byte(),
        1 => text[at] = random.pick(b"0AfgG!<> \n\r\t"),
        2 => {
            text.remove(at);
        }
        3 => text.insert(at, random.pick(b"0 !<>\n")),
        4 => text.truncate(at),
        // The last line without its end.
        5 => {
            text.pop();
        }
        6 => text.insert(end, random.pick(b" \r\t0!")),
        7 => text.insert((end + 1).min(text.len()), random.pick(b"\n !<>")),
        8 => {
            text.splice(end..end, b"\n>".iter().copied());
        }
        9 => {
            text.splice(end..end, b"\n<".iter().copied());
        }
        10 => {
            text.splice(end..end, b"\n! ".iter().copied());
        }
        11 => {
            if let Some(space) = text[at..].iter().position(|&byte| byte == b' ') {
                text.insert(at + space, b' ');
            }
        }
        12 => {
            if let Some(space) = text[at..].iter().position(|&byte| byte == b' ') {
                text.remove(at + space);
            }
        }
        _ => text.clear(),
    }
}

//! The sixteen trials, run through the program.

mod common;

use common::{BRING_UP, answer_to, answers, in_command, run};

/// A page's data frame of equal bytes.
fn page(byte: u8, end: u8, sum_error: u8) -> String {
    let sum = (256 - (256 * usize::from(byte)) % 256) % 256;
    let sum = (sum as u8).wrapping_add(sum_error);
    let body = format!("{byte:02X} ").repeat(256);
    format!("> 02 00 {body}{sum:02X} {end:02X}\n")
}

#[test]
fn trials_1_to_4_reset() {
    assert_eq!(answer_to("", "01 01 00 FF 03"), "< 02 01 06 F9 03");
    assert_eq!(answer_to("", "01 01 00 FE 03"), "< 02 01 07 F8 03");
    assert_eq!(answer_to("", "01 01 00 FE 17"), "< 02 01 15 EA 03");
    assert_eq!(answer_to("", "01 01 55 AA 03"), "< 02 01 04 FB 03");
}

#[test]
fn trials_5_and_6_options_shown() {
    assert_eq!(answer_to("", "01 01 A1 5E 03"), "< 02 01 06 F9 03 02 03 17 1D 00 C9 03");
    assert_eq!(answer_to("", "01 01 AD 52 03"), "< 02 01 06 F9 03 02 04 00 80 0F 80 ED 03");
}

#[test]
fn trials_7_and_8_checksum() {
    assert_eq!(
        answer_to("", "01 07 B0 00 10 0F FF 10 0F 0C 03"),
        "< 02 01 06 F9 03 02 02 00 01 FD 03"
    );
    assert_eq!(answer_to("", "01 07 B0 00 10 0F FE 10 0F 0D 03"), "< 02 01 05 FA 03");
}

#[test]
fn trial_9_boot_cluster() {
    let options = "options FD FF FFFF FFFF\n";
    assert_eq!(answer_to(options, "01 04 22 00 08 00 D2 03"), "< 02 01 10 EF 03");
    assert_eq!(answer_to(options, "01 04 22 00 40 00 9A 03"), "< 02 01 06 F9 03");
}

const PROGRAM_TWO_PAGES: &str = "> 01 07 40 00 10 0F FF 11 0F 7B 03\n";

#[test]
fn trial_10_first_page_not_blank() {
    let first = page(0xA5, 0x17, 0);
    let second = page(0x5A, 0x03, 0);
    let script = format!("{PROGRAM_TWO_PAGES}{first}{second}?\n");
    let lines = in_command("data F1005 00\n", &script);
    assert_eq!(lines[..3], ["< 02 01 06 F9 03", "< 02 02 06 06 F2 03", "< 02 02 06 1C DC 03"]);
    assert_eq!(lines[3..5], ["phase Command", "options FF FF FFFF FFFF"]);
    assert_eq!(lines.len(), 6);
    assert!(lines[5].starts_with("data F1000 FF FF FF FF FF 00 FF FF"));
    assert_eq!(lines[5].matches("FF").count(), 255);
}

#[test]
fn trial_11_second_page_not_blank() {
    let first = page(0xA5, 0x17, 0);
    let second = page(0x5A, 0x03, 0);
    let script = format!("{PROGRAM_TWO_PAGES}{first}{second}?\n");
    let lines = in_command("data F1105 00\n", &script);
    assert_eq!(lines[1..3], ["< 02 02 06 06 F2 03", "< 02 02 06 1C DC 03"]);
    assert_eq!(lines.len(), 7);
    assert_eq!(lines[5], format!("data F1000{}", " A5".repeat(256)));
    assert!(lines[6].starts_with("data F1100 FF FF FF FF FF 00 FF"));
}

#[test]
fn trial_12_second_sum_wrong() {
    let first = page(0xA5, 0x17, 0);
    let second = page(0x5A, 0x03, 1);
    let script = format!("{PROGRAM_TWO_PAGES}{first}{second}");
    let lines = in_command("data F1005 00\n", &script);
    assert_eq!(lines[1..], ["< 02 02 06 06 F2 03", "< 02 02 07 1C DB 03"]);
}

#[test]
fn trial_13_silent() {
    assert!(
        answers("!\n> 3B\n> 01 03 9A 00 21 42 03\n?\n")
            .starts_with("!\n> 3B\n> 01 03 9A 00 21 42 03\nphase Silent\n")
    );
    let wrong_id = "> 01 0B 9C 00 FF FF FF FF FF FF FF FF FF 62 03\n> 01 01 00 FF 03\n?\n";
    let lines = in_command("options FF FE FFFF FFFF\n", wrong_id);
    assert_eq!(lines[..2], ["< 02 01 24 DB 03", "phase Silent"]);
}

#[test]
fn trial_14_release() {
    let dirty = "options FB FF FFFF FFFF\ncode 07FFF 00\n";
    assert_eq!(answer_to(dirty, "01 01 A2 5D 03"), "< 02 01 1B E4 03");
    assert_eq!(answer_to("options FB FF FFFF FFFF\n", "01 01 A2 5D 03"), "< 02 01 10 EF 03");
}

#[test]
fn trial_15_empty_sheet() {
    assert_eq!(
        run(&["play"], &[0, 0]),
        "step kind status frames sum\nend 06 steps 0 frames 0 pieces 0\n"
    );
    assert_eq!(run(&["play"], &[0]), "refused J1\n");
    assert_eq!(run(&["play"], &[0; 65_537]), "refused J1\n");
    assert_eq!(run(&["play"], &[0; 65_536]), "refused J9\n");
}

fn sheet_16() -> Vec<u8> {
    let mut sheet = vec![3, 0];
    for (kind, offset) in [(1, 38u32), (2, 38), (4, 294)] {
        sheet.extend([kind, 0x00, 0x10, 0x0F, 0xFF, 0x10, 0x0F, 0x00]);
        sheet.extend(offset.to_le_bytes());
    }
    sheet.extend([0xA5; 256]);
    sheet
}

const LINES_16: &str = "\
step kind status frames sum
1 erase 06 1 0000
2 write 06 2 0000
3 sum 06 1 5B00
end 06 steps 3 frames 4 pieces 0
";

#[test]
fn trial_16_whole_play() {
    let sheet = sheet_16();
    assert_eq!(sheet.len(), 294);
    assert_eq!(run(&["play"], &sheet), LINES_16);
    let hex: String = sheet.iter().map(|byte| format!(" {byte:02x}")).collect();
    let script = format!("{BRING_UP}sheet{hex}\nplay\n");
    assert!(answers(&script).ends_with(LINES_16));
}

#[test]
fn plain_pieces_of_trials_10_and_11() {
    let mut sheet = vec![1, 0, 2, 0x00, 0x10, 0x0F, 0xFF, 0x11, 0x0F, 0x00, 14, 0, 0, 0];
    sheet.extend([0xA5; 512]);
    let hex: String = sheet.iter().map(|byte| format!(" {byte:02X}")).collect();
    for at in ["F1000", "F1100"] {
        let script = format!("data {at} 00\n{BRING_UP}sheet{hex}\nplay\n");
        assert!(
            answers(&script).ends_with("1 write 1C 3 0000\nend 1C steps 0 frames 3 pieces 0\n")
        );
    }
}

#[test]
fn security_set_has_a_reserved_byte() {
    assert_eq!(answer_to("", "01 04 A0 EF FF 00 6E 03"), "< 02 01 06 F9 03");
    assert_eq!(answer_to("", "01 03 A0 EF FF 6F 03"), "< 02 01 15 EA 03");
}

#[test]
fn bad_lines() {
    assert_eq!(answers("fresh\n\n"), "bad line 2\n");
    assert_eq!(answers("!\nfresh "), "!\nbad line 2\n");
    assert_eq!(answers("fresh \n"), "bad line 1\n");
    assert_eq!(answers("fresh\r\n"), "bad line 1\n");
    assert_eq!(answers("!\n>\n"), "!\nbad line 2\n");
    assert_eq!(answers("> 1\n"), "bad line 1\n");
    assert_eq!(answers(">  01\n"), "bad line 1\n");
    assert_eq!(answers("code 07FFF 00\ncode 07FFF 00 00\n"), "bad line 2\n");
    assert_eq!(answers("data F17FF 00\ndata F1800 00\n"), "bad line 2\n");
    assert_eq!(answers("options FF FF FFFF FFF\n"), "bad line 1\n");
    assert_eq!(answers("play\n"), "refused J1\n");
    assert_eq!(answers(""), "");
    let frames = |script: &str| run(&["frames"], script.as_bytes());
    assert_eq!(frames("<\n"), "bad line 1\n");
    assert_eq!(frames("sums 64\nsums 65\n"), "bad line 2\n");
    assert_eq!(frames("room 0\nroom 01\n"), "bad line 2\n");
    assert_eq!(frames("room 300\nroom 301\n"), "bad line 2\n");
    assert_eq!(frames("go\n<\n< \n"), "refused J1\nrefused J1\nbad line 3\n");
}

#[test]
fn input_past_the_limit() {
    const LIMIT: usize = 1_048_576;
    // 174,762 lines of six bytes are four bytes short of the limit.
    let lines = "fresh\n".repeat(LIMIT / 6);
    assert_eq!(answers(&format!("{lines}!\n!\n")), "!\n!\n");
    assert_eq!(answers(&format!("{lines}!\n!\n!\n")), "!\n!\nbad line 174765\n");
    assert_eq!(answers(&format!("{lines}!\nfresh\n")), "!\nbad line 174764\n");
    assert_eq!(answers(&format!("{lines}!\n?x\n")), "!\nbad line 174764\n");
}

#[test]
fn player_refusals_and_ends() {
    let frames = |script: &str| run(&["frames"], script.as_bytes());
    let sheet = "sheet 01 00 01 00 10 0F FF 10 0F 00 0E 00 00 00\n";
    let no_sum = "sums 0000\n";
    assert_eq!(frames(&format!("{sheet}sums 0\nroom 259\ngo\n")), "refused J10\n");
    assert_eq!(frames(&format!("{sheet}sums 1\nroom 259\ngo\n")), "refused P1\n");
    let script = format!("{sheet}sums 1\ngo 02\n< 02 01 06 F9 03\n<\nroom 0\n<\n");
    let end = format!("end 06 steps 1 frames 1 pieces 0\n{no_sum}");
    assert_eq!(frames(&script), format!("> 01 04 22 00 10 0F BB 03\n{end}{end}refused P1\n"));
    let script = format!("{sheet}sums 1\ngo\nsheet 00 00\n<\n{sheet}<\n");
    let end = format!("end L1 steps 0 frames 1 pieces 0\n{no_sum}");
    assert_eq!(frames(&script), format!("> 01 04 22 00 10 0F BB 03\nrefused P2\n{end}"));
}

#[test]
fn a_step_of_another_kind_is_not_the_step_begun() {
    let frames = |script: &str| run(&["frames"], script.as_bytes());
    let sheet = |kind: u8| {
        let body = if kind == 2 || kind == 3 { " FF".repeat(256) } else { String::new() };
        format!("sheet 01 00 {kind:02X} 00 10 0F FF 10 0F 00 0E 00 00 00{body}\n")
    };
    let ack = "< 02 01 06 F9 03\n";
    for begun in 1..=4 {
        for given in 1..=4 {
            let script = format!("sums 1\n{}go\n{}{ack}", sheet(begun), sheet(given));
            let text = frames(&script);
            let refused = text.ends_with("refused P2\n");
            assert_eq!(refused, begun != given, "begun {begun}, given {given}: {text}");
        }
    }
    // State and buffers stand: the write goes on with its own sheet.
    let script = format!("sums 1\n{}go\n{}{ack}{}{ack}", sheet(2), sheet(3), sheet(2));
    let page = format!("> 02 00{} 00 03\n", " FF".repeat(256));
    let text = frames(&script);
    assert!(text.contains("refused P2\n> 02 00 FF"), "{text}");
    assert!(text.ends_with(&page), "{text}");
}

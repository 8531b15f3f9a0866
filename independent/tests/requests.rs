//! The change requests, one part each, with the papers' own numbers.

mod common;

use common::{BRING_UP, Ended, answers, ended, in_command, run};

/// What a script for a large chip in phase Command writes, without the lines
/// that bring it there.
fn on_large(preparation: &str, script: &str) -> String {
    let text = answers(&format!("chip large\n{preparation}{BRING_UP}{script}"));
    let (_, told) = text.split_once("< 02 03 06 20 00 D7 03\n").expect("the speed is set");
    String::from(told)
}

fn sheet_line(sheet: &[u8]) -> String {
    let hex: String = sheet.iter().map(|byte| format!(" {byte:02X}")).collect();
    format!("sheet{hex}\n")
}

/// A form 1 sheet of one step without a body.
fn one_step(kind: u8, sad: u32, ead: u32) -> Vec<u8> {
    let mut sheet = vec![1, 0, kind];
    sheet.extend(&sad.to_le_bytes()[..3]);
    sheet.extend(&ead.to_le_bytes()[..3]);
    sheet.extend([0, 14, 0, 0, 0]);
    sheet
}

mod m105_the_larger_receiver {
    use super::*;

    #[test]
    fn window_get_shows_the_last_code_block() {
        assert_eq!(
            on_large("", "> 01 01 AD 52 03\n"),
            "> 01 01 AD 52 03\n< 02 01 06 F9 03 02 04 00 80 3F 80 BD 03\n"
        );
    }

    #[test]
    fn blocks_up_to_the_chips_own_last() {
        // Erase of 1F800h and F2F00h, the last blocks; of 20000h and F3000h.
        let script = "\
> 01 04 22 00 F8 01 E1 03
> 01 04 22 00 2F 0F 9C 03
> 01 04 22 00 00 02 D8 03
> 01 04 22 00 30 0F 9B 03
";
        let told = on_large("code 1FFFF 00\ndata F2FFF 00\n", &format!("{script}?\n"));
        let found: Vec<&str> = told.lines().filter(|line| !line.starts_with('>')).collect();
        let (well, not) = ("< 02 01 06 F9 03", "< 02 01 05 FA 03");
        let end = ["phase Command", "options FF FF FFFF FFFF"];
        assert_eq!(found, [well, well, not, not, end[0], end[1]]);
        let small = answers(&format!("{BRING_UP}{script}"));
        assert_eq!(small.matches(not).count(), 4);
    }

    #[test]
    fn boot_cluster_0_is_blocks_0_to_7_again() {
        let options = "options FD FF FFFF FFFF\n";
        let told = on_large(options, "> 01 04 22 00 38 00 A2 03\n> 01 04 22 00 40 00 9A 03\n");
        let found: Vec<&str> = told.lines().filter(|line| line.starts_with('<')).collect();
        assert_eq!(found, ["< 02 01 10 EF 03", "< 02 01 06 F9 03"]);
    }

    #[test]
    fn names_and_counts() {
        for (line, expected) in [
            ("chip small", "0F 80 ED"),
            ("chip 16 8", "0F 80 ED"),
            ("fresh", "0F 80 ED"),
            ("chip large", "3F 80 BD"),
            ("chip 64 32", "3F 80 BD"),
        ] {
            let text = answers(&format!("chip large\n{line}\n{BRING_UP}> 01 01 AD 52 03\n"));
            assert!(text.ends_with(&format!("02 04 00 80 {expected} 03\n")), "{line}: {text}");
        }
        for line in ["chip", "chip 16", "chip 016 8", "chip 256 8", "chip Small", "chip small 8"] {
            assert_eq!(answers(&format!("{line}\n")), "bad line 1\n");
        }
    }

    #[test]
    fn other_counts() {
        let sheet = sheet_line(&[0]);
        let script = format!("chip 16 32\n!\n> 3A\n{sheet}play\n!\n?\nchip small\n!\n?\n");
        let options = "options FF FF FFFF FFFF\n";
        assert_eq!(
            answers(&script),
            format!(
                "!\nrefused D0\n> 3A\nrefused D0\n!\nrefused D0\nphase Off\n{options}\
                 !\nphase Mode\n{options}"
            )
        );
        assert_eq!(answers("chip 64 8\ncode 00000 00\n"), "bad line 2\n");
        assert_eq!(answers("chip 64 8\ndata F1000 00\n"), "bad line 2\n");
        assert_eq!(answers("chip 0 0\n!\n"), "!\nrefused D0\n");
    }

    #[test]
    fn the_players_chip() {
        let frames = |script: &str| run(&["frames"], script.as_bytes());
        let erase = sheet_line(&one_step(1, 0xF1000, 0xF10FF));
        let frame = "> 01 04 22 00 10 0F BB 03\n";
        // The sheet in hand and the play stand; D0 comes before every J.
        let script = format!("{erase}sums 1\ngo\nchip 1 1\n<\nchip small\n< 02 01 06 F9 03\n");
        let end = "end 06 steps 1 frames 1 pieces 0\nsums 0000\n";
        assert_eq!(frames(&script), format!("{frame}refused D0\n{end}"));
        assert_eq!(frames("chip 1 1\nsheet 00\ngo\n"), "refused D0\n");
        // A `chip` line is another line: the `sheet` line after it begins anew.
        assert_eq!(frames("sheet 00\nchip small\nsheet 00\ngo\n"), "refused J1\n");
    }

    #[test]
    fn the_program_keeps_the_small_one() {
        assert_eq!(run(&["play"], &one_step(4, 0x08000, 0x087FF)), "refused J6\n");
        assert_eq!(run(&["play"], &one_step(4, 0xF1800, 0xF18FF)), "refused J6\n");
    }

    #[test]
    fn meaning_on_both() {
        assert_eq!(run(&["meaning-check", "105", "300"], &[]), "ok 300\n");
    }
}

mod m102_id_checking_stays_on {
    use super::*;

    const RELEASE: &str = "> 01 01 A2 5D 03\n";
    const ACK: &str = "< 02 01 06 F9 03\n";
    const ID: &str = "> 01 0B 9C FF FF FF FF FF FF FF FF FF FF 63 03\n";

    #[test]
    fn release_keeps_iden_0() {
        let options = "options EE E6 0000 0000\n";
        let script = format!("{options}{BRING_UP}{ID}{RELEASE}?\n{BRING_UP}?\n");
        let text = answers(&script);
        assert!(text.contains(&format!("{ID}{ACK}{RELEASE}{ACK}phase Command\n")), "{text}");
        assert!(text.contains("options FE FE 81FF 81FF\n"), "{text}");
        assert!(text.ends_with("phase Ident\noptions FE FE 81FF 81FF\n"), "{text}");
    }

    #[test]
    fn release_keeps_iden_1() {
        let script = format!("options EE E7 0000 0000\n{BRING_UP}{RELEASE}{BRING_UP}?\n");
        let text = answers(&script);
        assert!(text.ends_with("phase Command\noptions FE FF 81FF 81FF\n"), "{text}");
    }
}

mod m100_blank_check {
    use super::*;

    /// F1000h to F11FFh, flash alone; the same with the options; code block 0
    /// and 1 with the options.
    const DATA: &str = "> 01 08 32 00 10 0F FF 11 0F 00 88 03\n";
    const DATA_AND_OPTIONS: &str = "> 01 08 32 00 10 0F FF 11 0F 01 87 03\n";
    const CODE_AND_OPTIONS: &str = "> 01 08 32 00 00 00 FF 0F 00 01 B7 03\n";

    fn told(preparation: &str, line: &str) -> String {
        in_command(preparation, line).join("|")
    }

    const ACK: &str = "< 02 01 06 F9 03";

    #[test]
    fn blank() {
        for line in [DATA, DATA_AND_OPTIONS, CODE_AND_OPTIONS] {
            assert_eq!(told("", line), ACK);
        }
        // Unnamed bits and BTFLG, which always reads 1, do not count.
        assert_eq!(told("options 16 1D 81FF 81FF\n", CODE_AND_OPTIONS), ACK);
        // Bytes outside the range do not count.
        assert_eq!(told("data F1200 00\ncode 01000 00\n", DATA), ACK);
        assert_eq!(told("data F1000 00\ncode 01000 00\n", CODE_AND_OPTIONS), ACK);
    }

    #[test]
    fn the_first_byte_that_is_not_blank() {
        let not_blank = "< 02 01 1B E4 03";
        assert_eq!(told("data F1100 00\n", DATA), format!("{not_blank}|note data 1 0"));
        assert_eq!(told("data F10FF FE FE\n", DATA), format!("{not_blank}|note data 0 0"));
        let code = |at: &str| told(&format!("code {at} 7F\n"), CODE_AND_OPTIONS);
        assert_eq!(code("00000"), format!("{not_blank}|note code 0 0"));
        assert_eq!(code("007FF"), format!("{not_blank}|note code 0 7"));
        assert_eq!(code("00800"), format!("{not_blank}|note code 1 0"));
        assert_eq!(code("00DFF"), format!("{not_blank}|note code 1 5"));
        // The block is counted in its flash, not in the range: F1700h alone.
        let last = "> 01 08 32 00 17 0F FF 17 0F 00 7B 03\n";
        assert_eq!(told("data F1700 00\n", last), format!("{not_blank}|note data 7 0"));
    }

    #[test]
    fn each_option_bit_counts_with_tar_1_only() {
        let (ones, not_blank) = ([0xFFu32, 0xFF, 0xFFFF, 0xFFFF], "< 02 01 1B E4 03|note options");
        // IDEN and IFPR are left out: with them 0 no command is reached so.
        let named = [0x16u32, 0x18, 0x81FF, 0x81FF];
        for word in 0..4 {
            for bit in 0..16 {
                let mut options = ones;
                options[word] &= !(1 << bit);
                if named[word] == 0x18 && (bit == 0 || bit == 2) {
                    continue;
                }
                let [sf1, sf2, sws, swe] = options;
                let line = format!("options {sf1:02X} {sf2:02X} {sws:04X} {swe:04X}\n");
                let due = if named[word] & 1 << bit != 0 { not_blank } else { ACK };
                assert_eq!(told(&line, DATA_AND_OPTIONS), due, "{line}");
                assert_eq!(told(&line, DATA), ACK, "{line}");
            }
        }
        // IDEN 0, after the ID.
        let id = "> 01 0B 9C FF FF FF FF FF FF FF FF FF FF 63 03\n";
        let lines = told("options FF FE FFFF FFFF\n", &format!("{id}{DATA_AND_OPTIONS}"));
        assert_eq!(lines, format!("{ACK}|{not_blank}"));
        // The flash is named before the options.
        let both = "options FF EF FFFF FFFF\ndata F1000 00\n";
        assert_eq!(told(both, DATA_AND_OPTIONS), "< 02 01 1B E4 03|note data 0 0");
    }

    #[test]
    fn refusals() {
        let dirty = "data F1000 00\n";
        // TAR 02h; EAD F11FEh; LEN 7, the TAR missing; the code before Command.
        assert_eq!(told(dirty, "> 01 08 32 00 10 0F FF 11 0F 02 86 03\n"), "< 02 01 05 FA 03");
        assert_eq!(told(dirty, "> 01 08 32 00 10 0F FE 11 0F 00 89 03\n"), "< 02 01 05 FA 03");
        assert!(told(dirty, "> 01 07 32 00 10 0F FF 11 0F 89 03\n").starts_with("< 02 01 15 EA"));
        let early = answers(&format!("!\n> 3A\n{DATA}"));
        assert!(early.ends_with(&format!("{DATA}< 02 01 04 FB 03\n")), "{early}");
    }

    #[test]
    fn a_note_ends_its_line() {
        let frame = "01 08 32 00 10 0F FF 11 0F 00 88 03";
        let reset = "01 01 00 FF 03";
        let lines = in_command(
            "data F1100 00\n",
            &format!("> {reset} {frame} {reset} {reset} {frame}\n?\n"),
        );
        assert_eq!(
            lines[..4],
            [
                "< 02 01 06 F9 03 02 01 1B E4 03",
                "note data 1 0",
                "< 02 01 06 F9 03 02 01 06 F9 03 02 01 1B E4 03",
                "note data 1 0",
            ]
        );
        assert_eq!(lines[4..6], ["phase Command", "options FF FF FFFF FFFF"]);
    }

    #[test]
    fn release_has_no_note() {
        assert_eq!(told("code 00000 00\n", "> 01 01 A2 5D 03\n"), "< 02 01 1B E4 03");
    }
}

mod m101_say_why_a_frame_was_bad {
    use super::*;

    fn told(line: &str) -> String {
        in_command("", line).join("|")
    }

    #[test]
    fn command_frames() {
        // Trials 2 to 4 and Reset's LEN.
        assert_eq!(told("> 01 01 00 FE 03\n"), "< 02 01 07 F8 03");
        assert_eq!(told("> 01 01 00 FE 17\n"), "< 02 01 15 EA 03|note end");
        assert_eq!(told("> 01 01 00 FF 00\n"), "< 02 01 15 EA 03|note end");
        assert_eq!(told("> 01 01 55 AA 03\n"), "< 02 01 04 FB 03");
        assert_eq!(told("> 01 02 00 00 FE 03\n"), "< 02 01 15 EA 03|note len 01 02");
        // Erase one byte short; Security Set as 01 had it.
        assert_eq!(told("> 01 03 22 00 08 D3 03\n"), "< 02 01 15 EA 03|note len 04 03");
        assert_eq!(told("> 01 03 A0 EF FF 6F 03\n"), "< 02 01 15 EA 03|note len 04 03");
        // LEN 00h found: 256 bytes.
        let long = format!("> 01 00{} 00 03\n", " 00".repeat(256));
        assert_eq!(told(&long), "< 02 01 15 EA 03|note len 01 00");
    }

    #[test]
    fn before_phase_command() {
        let text = answers("!\n> 3A\n> 01 02 9A 00 64 03\n?\n");
        assert!(text.contains("< 02 01 15 EA 03\nnote len 03 02\nphase Silent\n"), "{text}");
        let text = answers("!\n> 3A\n> 01 03 9A 00 21 42 17\n?\n");
        assert!(text.contains("< 02 01 15 EA 03\nnote end\nphase Speed\n"), "{text}");
    }

    #[test]
    fn data_frames() {
        let begin = "> 01 07 40 00 10 0F FF 11 0F 7B 03\n";
        let page = format!("> 02 00{} 00", " A5".repeat(256));
        let ack = "< 02 01 06 F9 03";
        // 03h for 17h at the first of two, 17h for 03h at the second.
        assert_eq!(
            told(&format!("{begin}{page} 03\n")),
            format!("{ack}|< 02 02 15 06 E3 03|note end")
        );
        assert_eq!(
            told(&format!("{begin}{page} 17\n{page} 17\n")),
            format!("{ack}|< 02 02 06 06 F2 03|< 02 02 15 06 E3 03|note end")
        );
        assert_eq!(
            told(&format!("{begin}> 02 01 00 FF 17\n")),
            format!("{ack}|< 02 02 15 06 E3 03|note len 00 01")
        );
        // A wrong SUM hides a wrong LEN; the write status stays as it was.
        assert_eq!(
            told(&format!("{begin}> 02 01 00 FE 17\n")),
            format!("{ack}|< 02 02 07 06 F1 03")
        );
        let dirty = in_command("data F1005 00\n", &format!("{begin}{page} 17\n{page} 17\n"));
        assert_eq!(dirty[2..], ["< 02 02 15 1C CD 03", "note end"]);
        let dirty = in_command("data F1005 00\n", &format!("{begin}{page} 17\n{page} 03\n"));
        assert_eq!(dirty[2..], ["< 02 02 06 1C DC 03"]);
    }
}

mod m103_intel_hex_in {
    use super::*;

    const END: &str = ":00000001FF\n";
    /// Upper address 000Fh: data flash is offset 1000h to 17FFh.
    const UPPER: &str = ":02000004000FEB\n";

    fn hex(text: &str) -> Ended {
        ended(&["hex"], text.as_bytes())
    }

    fn refusal(text: &str) -> String {
        let Ended { output, errors, status } = hex(text);
        assert_eq!((output.len(), status), (0, Some(1)), "{text}");
        assert!(errors.starts_with("hex: ") && errors.ends_with('\n'), "{errors}");
        String::from(errors["hex: ".len()..].trim_end())
    }

    fn sheet(text: &str) -> Vec<u8> {
        let Ended { output, errors, status } = hex(text);
        assert_eq!((errors.as_str(), status), ("", Some(0)), "{text}");
        output
    }

    /// A record with its sum.
    fn record(offset: u16, kind: u8, data: &[u8]) -> String {
        let mut bytes = vec![data.len() as u8, (offset >> 8) as u8, offset as u8, kind];
        bytes.extend(data);
        bytes.push(bytes.iter().fold(0u8, |total, &byte| total.wrapping_sub(byte)));
        let digits: String = bytes.iter().map(|byte| format!("{byte:02X}")).collect();
        format!(":{digits}\n")
    }

    /// The sheet due: erase, write and verify of each block.
    fn due(blocks: &[(u32, Vec<u8>)]) -> Vec<u8> {
        let count = 3 * blocks.len();
        let mut sheet = (count as u16).to_le_bytes().to_vec();
        let mut offset = 2 + 12 * count;
        for (first, bytes) in blocks {
            let last = first + bytes.len() as u32 - 1;
            for kind in 1..=3 {
                sheet.push(kind);
                sheet.extend(&first.to_le_bytes()[..3]);
                sheet.extend(&last.to_le_bytes()[..3]);
                sheet.push(0);
                sheet.extend((offset as u32).to_le_bytes());
                offset += if kind == 1 { 0 } else { bytes.len() };
            }
        }
        for (_, bytes) in blocks {
            sheet.extend(bytes);
            sheet.extend(bytes);
        }
        sheet
    }

    #[test]
    fn good_files() {
        assert_eq!(sheet(END), [0, 0]);
        let mut block = vec![0xFF; 256];
        block[0x10] = 0xA5;
        assert_eq!(
            sheet(&format!("{UPPER}:01101000A53A\n{END}")),
            due(&[(0xF1000, block.clone())])
        );
        // CR LF, case of digits, the address of 01 and 04 not read.
        let other = ":02123404000fA5\r\n:01101000a53A\n:00ABCD0187\r\n";
        assert_eq!(sheet(other), due(&[(0xF1000, block.clone())]));
        // Rising order of blocks, whatever the order of records; an upper that
        // comes back; the last and first bytes of both flashes.
        let text = [
            UPPER.to_string(),
            record(0x17FF, 0, &[3]),
            record(0x1000, 0, &[2]),
            record(0x0000, 4, &[0, 0]),
            record(0x7FFF, 0, &[1]),
            record(0x0000, 0, &[0]),
            END.to_string(),
        ]
        .concat();
        let with = |length: usize, at: usize, byte: u8| {
            let mut bytes = vec![0xFF; length];
            bytes[at] = byte;
            bytes
        };
        let blocks = [
            (0x00000, with(2048, 0, 0)),
            (0x07800, with(2048, 2047, 1)),
            (0xF1000, with(256, 0, 2)),
            (0xF1700, with(256, 255, 3)),
        ];
        assert_eq!(sheet(&text), due(&blocks));
        // A given FFh counts as given; a record of no bytes gives none.
        let text = format!("{}{}{END}", record(0x0800, 0, &[0xFF]), record(0x9000, 0, &[]));
        assert_eq!(sheet(&text), due(&[(0x00800, vec![0xFF; 2048])]));
    }

    #[test]
    fn the_sheet_plays() {
        let text = format!("{UPPER}{}{END}", record(0x1000, 0, &[0xA5; 16]));
        assert_eq!(
            run(&["play"], &sheet(&text)),
            "step kind status frames sum\n1 erase 06 1 0000\n2 write 06 2 0000\n\
             3 verify 06 2 0000\nend 06 steps 3 frames 5 pieces 0\n"
        );
    }

    #[test]
    fn bad_form() {
        for line in [
            "\n",
            "00000001FF\n",
            " :00000001FF\n",
            ":00000001FF \n",
            ":00000001FF\r\r\n",
            ":00000001F\n",
            ":00000001FG\n",
            ":0000000\n",
            ":\n",
            ":00000001FF00\n",
            ":01000000FF\n",
            // Without its end.
            ":00000001FF",
            ":00000001FF\r",
            // 01 with data, 04 with one byte and with three, past FFFFh.
            ":0100000100FE\n",
            ":010000040FEC\n",
            ":03000004000F00EA\n",
            ":02FFFF000000FF\n",
        ] {
            assert_eq!(refusal(&format!("{UPPER}{line}")), "line 2: bad form", "{line:?}");
        }
        // Up to FFFFh is no bad form.
        assert_eq!(refusal(":01FFFF000001\n"), "line 1: byte outside the flashes");
    }

    #[test]
    fn order_in_a_line() {
        let kind = "record type other than 00, 01, 04: write the file with 04 records";
        // Bad form and a wrong sum; a wrong sum and another type; another type.
        assert_eq!(refusal(":0100000100FF\n"), "line 1: bad form");
        assert_eq!(refusal(":020000021000ED\n"), "line 1: wrong sum");
        assert_eq!(refusal(":020000021000EC\n"), format!("line 1: {kind}"));
        // A wrong sum and a byte outside; outside and twice in one record.
        assert_eq!(refusal(":0180000000FF\n"), "line 1: wrong sum");
        let twice = [record(0x7FFF, 0, &[0]), record(0x7FFF, 0, &[0, 0])].concat();
        assert_eq!(refusal(&twice), "line 2: byte outside the flashes");
        let twice = [record(0x7FF0, 0, &[0, 0]), record(0x7FF1, 0, &[0])].concat();
        assert_eq!(refusal(&format!("{twice}{END}")), "line 2: byte given twice");
    }

    #[test]
    fn outside() {
        for (upper, offset, count) in [
            (0x0000, 0x8000, 1),
            (0x0000, 0x7FF8, 9),
            (0x0001, 0x0000, 1),
            (0x000F, 0x0FFF, 1),
            (0x000F, 0x1800, 1),
            (0x000F, 0x17F0, 17),
            (0x0010, 0x0000, 1),
            (0xFFFF, 0xFFFF, 1),
        ] {
            let upper = record(0, 4, &u16::to_be_bytes(upper));
            let text = format!("{upper}{}{END}", record(offset, 0, &vec![0; count]));
            assert_eq!(refusal(&text), "line 2: byte outside the flashes");
        }
    }

    #[test]
    fn after_all_lines() {
        assert_eq!(refusal(""), "no end record");
        assert_eq!(refusal(UPPER), "no end record");
        assert_eq!(refusal(&format!("{END}{UPPER}")), "line 2: a line after the end record");
        assert_eq!(refusal(&format!("{END}{END}")), "line 2: a line after the end record");
        let data = |blocks: u16| -> String {
            (0..blocks).map(|block| record(0x1000 + block * 0x100, 0, &[0])).collect()
        };
        let code = |blocks: u16| -> String {
            (0..blocks).map(|block| record(block * 0x800, 0, &[0])).collect()
        };
        let text =
            |in_code: u16, in_data: u16| format!("{}{UPPER}{}{END}", code(in_code), data(in_data));
        assert_eq!(sheet(&text(15, 0)).len(), 61_982);
        assert_eq!(sheet(&text(15, 6)).len(), 2 + 12 * 63 + 2 * (15 * 2_048 + 6 * 256));
        let long = "over 65,536 bytes: at most 15 code blocks a sheet, split the image";
        let steps = "over 64 steps: at most 21 blocks a sheet, split the image";
        assert_eq!(refusal(&text(16, 0)), long);
        assert_eq!(refusal(&text(16, 5)), long);
        assert_eq!(refusal(&text(15, 7)), steps);
        assert_eq!(refusal(&text(16, 8)), steps);
        assert_eq!(refusal(&text(15, 7).replace(END, "")), "no end record");
    }

    #[test]
    fn too_long_a_text() {
        let line = ":00000000\r\n";
        let text = line.repeat(1_048_576 / line.len() + 1);
        let input = &text.as_bytes()[..1_048_577];
        let found = ended(&["hex"], input);
        assert_eq!(found.errors, "hex: input over 1,048,576 bytes\n");
        assert_eq!((found.output.len(), found.status), (0, Some(2)));
        assert_eq!(ended(&["hex"], &input[..1_048_576]).errors, "hex: line 1: bad form\n");
    }

    #[test]
    fn files_and_results() {
        let dir = std::env::temp_dir().join(format!("sheetplay-hex-{}", std::process::id()));
        let place = dir.to_str().expect("a path of text");
        assert_eq!(ended(&["generate-files", "hex", "103", "40", place], &[]).status, Some(0));
        let results = run(&["hex-results", place], &[]);
        assert_eq!(results.lines().count(), 40);
        for (index, line) in results.lines().enumerate() {
            let name = format!("{:04}.hex", index + 1);
            let text = std::fs::read(dir.join(&name)).expect("the file is there");
            let Ended { output, errors, .. } = ended(&["hex"], &text);
            let due = if errors.is_empty() {
                let bytes: String = output.iter().map(|byte| format!(" {byte:02X}")).collect();
                format!("{name} sheet {}{bytes}", output.len())
            } else {
                format!("{name} {}", errors.trim_end())
            };
            assert_eq!(line, due);
        }
        std::fs::remove_dir_all(dir).expect("the files are removed");
    }
}

mod m109_the_whole_frame_engine {
    use super::*;

    #[test]
    fn the_trials_by_frame() {
        for (frame, due) in [
            ("01 01 00 FF 03", "< 02 01 06 F9 03"),
            ("01 01 00 FE 03", "< 02 01 07 F8 03"),
            ("01 01 00 FE 17", "< 02 01 15 EA 03|note end"),
            ("01 01 55 AA 03", "< 02 01 04 FB 03"),
            ("01 01 a1 5e 03", "< 02 01 06 F9 03 02 03 17 1D 00 C9 03"),
            ("01 02 00 00 FE 03", "< 02 01 15 EA 03|note len 01 02"),
        ] {
            let lines = in_command("", &format!("frame {frame}\n"));
            assert_eq!(lines[0], format!("frame {}", frame.to_uppercase()));
            assert_eq!(lines[1..].join("|"), due);
        }
    }

    #[test]
    fn no_whole_frame_of_the_kind_awaited() {
        for frame in [
            "",
            " 01",
            " 01 01 00 FF",
            " 01 01 00 FF 03 00",
            " 01 01 00 FF 03 01 01 00 FF 03",
            " 02 01 00 FF 03",
            " 00 01 01 00 FF 03",
            " 01 02 00 FF 03",
            " 01 00 00 FF 03",
        ] {
            let lines = in_command("", &format!("frame{frame}\n> 01 01 00 FF 03\n"));
            assert_eq!(lines, [&format!("frame{frame}"), "refused E1", "< 02 01 06 F9 03"]);
        }
    }

    #[test]
    fn pages_by_frame() {
        let program = "frame 01 07 40 00 10 0F FF 11 0F 7B 03\n";
        let page = |end: &str| format!("frame 02 00{} 00 {end}\n", " A5".repeat(256));
        let script = format!("{program}frame 01 01 00 FF 03\n{}{}?\n", page("17"), page("03"));
        let lines = in_command("", &script);
        let told: Vec<&str> =
            lines.iter().map(String::as_str).filter(|line| !line.starts_with("frame")).collect();
        assert_eq!(told[..3], ["< 02 01 06 F9 03", "refused E1", "< 02 02 06 06 F2 03"]);
        assert_eq!(told[3..5], ["< 02 02 06 06 F2 03", "phase Command"]);
        assert_eq!(told.len(), 8);
        // A page of another LEN is a whole frame, and answered.
        let lines = in_command("", &format!("{program}frame 02 01 00 FF 17\n"));
        assert_eq!(lines[3..], ["< 02 02 15 06 E3 03", "note len 00 01"]);
    }

    #[test]
    fn where_no_frame_is_awaited() {
        let reset = "frame 01 01 00 FF 03\n";
        let speed = "frame 01 03 9A 00 21 42 03\n";
        let refused = format!("{reset}refused E1\n");
        // Power off; mode byte awaited; Silent; a frame half received.
        assert_eq!(answers(reset), refused);
        assert_eq!(answers(&format!("!\n{reset}")), format!("!\n{refused}"));
        assert_eq!(answers("!\nframe 3A\n"), "!\nframe 3A\nrefused E1\n");
        assert_eq!(answers(&format!("!\n> 3B\n{reset}")), format!("!\n> 3B\n{refused}"));
        let half = format!("!\n> 3A\n> 01 03\n{speed}> 9A 00 21 42 03\n");
        let due = format!(
            "!\n> 3A\n> 01 03\n{speed}refused E1\n> 9A 00 21 42 03\n< 02 03 06 20 00 D7 03\n"
        );
        assert_eq!(answers(&half), due);
        // Speed and Ident await frames. Skipped bytes are not half a frame.
        let text = answers(&format!("!\n> 3A 00 02\n{reset}{speed}"));
        assert_eq!(
            text,
            format!("!\n> 3A 00 02\n{reset}< 02 01 04 FB 03\n{speed}< 02 03 06 20 00 D7 03\n")
        );
        // D0 comes before.
        assert_eq!(answers("chip 1 2\nframe\n"), "frame\nrefused D0\n");
        assert_eq!(answers(&format!("chip 1 2\n{reset}")), format!("{reset}refused D0\n"));
    }

    #[test]
    fn no_answer() {
        let shut = "frame 01 04 A0 FF FB 00 62 03\n";
        let text = answers(&format!("{BRING_UP}{shut}{shut}"));
        assert!(text.ends_with(&format!("D7 03\n{shut}{shut}refused E1\n")), "{text}");
    }

    /// A whole frame that is taken does what its bytes do one by one.
    #[test]
    fn equal_to_the_byte_engine() {
        let script = run(&["generate", "scripts", "109", "120"], &[]);
        let told = answers(&script);
        let mut as_bytes = String::new();
        let mut due = String::new();
        let mut lines = told.lines().peekable();
        let mut taken = 0;
        // The echo of the lines in `told` shows which were taken.
        let mut echoes = Vec::new();
        while let Some(line) = lines.next() {
            if let Some(frame) = line.strip_prefix("frame") {
                let refused = lines.peek().is_some_and(|next| next.starts_with("refused"));
                echoes.push(!refused);
                if refused {
                    lines.next();
                } else {
                    taken += 1;
                    due.push_str(&format!(">{frame}\n"));
                }
            } else {
                due.push_str(&format!("{line}\n"));
            }
        }
        let mut echoes = echoes.into_iter();
        for line in script.lines() {
            match line.strip_prefix("frame") {
                None => as_bytes.push_str(&format!("{line}\n")),
                Some(frame) if echoes.next() == Some(true) => {
                    as_bytes.push_str(&format!(">{frame}\n"));
                }
                Some(_) => {}
            }
        }
        assert!(taken > 100, "{taken}");
        assert_eq!(answers(&as_bytes), due);
    }
}

mod m106_sheet_form_2 {
    use super::*;

    /// An entry without its offset: kind, SAD, EAD.
    type Entry = (u8, [u8; 3], [u8; 3]);

    const SUM: Entry = (4, [0x00, 0x10, 0x0F], [0xFF, 0x10, 0x0F]);
    const BLANK: Entry = (5, [0x00, 0x10, 0x0F], [0xFF, 0x10, 0x0F]);
    const LOCK: Entry = (6, [0xFF, 0xFF, 0x00], [0x00; 3]);
    const SHUT: Entry = (6, [0xFF, 0xFB, 0x00], [0x00; 3]);

    fn form_2(chip: u8, entries: &[Entry]) -> Vec<u8> {
        let mut sheet = vec![0xFE, 0x02, chip, 0, entries.len() as u8, 0];
        for (kind, sad, ead) in entries {
            sheet.push(*kind);
            sheet.extend(sad);
            sheet.extend(ead);
            sheet.push(0);
            sheet.extend((6 + 12 * entries.len() as u32).to_le_bytes());
        }
        sheet
    }

    /// Trial 16's sheet in either form.
    fn sheet_16(form: u8) -> Vec<u8> {
        let (head, first) = match form {
            1 => (vec![3, 0], 38u32),
            _ => (vec![0xFE, 2, 1, 0, 3, 0], 42),
        };
        let mut sheet = head;
        for (kind, offset) in [(1, first), (2, first), (4, first + 256)] {
            sheet.extend([kind, 0x00, 0x10, 0x0F, 0xFF, 0x10, 0x0F, 0x00]);
            sheet.extend(offset.to_le_bytes());
        }
        sheet.extend([0xA5; 256]);
        sheet
    }

    fn play(sheet: &[u8]) -> String {
        run(&["play"], sheet)
    }

    #[test]
    fn trial_16_in_form_2() {
        assert_eq!(sheet_16(2).len(), 298);
        assert_eq!(play(&sheet_16(2)), play(&sheet_16(1)));
        assert!(
            play(&sheet_16(2)).ends_with("3 sum 06 1 5B00\nend 06 steps 3 frames 4 pieces 0\n")
        );
    }

    #[test]
    fn head() {
        let heading = "step kind status frames sum\n";
        let empty = [0xFE, 2, 1, 0, 0, 0];
        assert_eq!(play(&empty), format!("{heading}end 06 steps 0 frames 0 pieces 0\n"));
        assert_eq!(play(&empty[..5]), "refused J1\n");
        assert_eq!(play(&empty[..2]), "refused J1\n");
        let long = |length: usize| [&empty[..], &vec![0; length - 6]].concat();
        assert_eq!(play(&long(65_540)), "refused J9\n");
        assert_eq!(play(&long(65_541)), "refused J1\n");
        assert_eq!(play(&[0xFE, 2, 3, 9, 65, 0]), "refused J2\n");
        assert_eq!(play(&[0xFE, 2, 3, 0, 1, 0]), "refused J11\n");
        assert_eq!(play(&[0xFE, 2, 0, 0, 0, 0]), "refused J11\n");
        assert_eq!(play(&[0xFE, 2, 1, 1, 0, 0]), "refused J11\n");
        assert_eq!(play(&[0xFE, 2, 1, 0, 1, 0]), "refused J3\n");
        // Another mark is a count of form 1.
        assert_eq!(play(&[0xFE, 3, 1, 0, 0, 0]), "refused J2\n");
    }

    #[test]
    fn the_chip_named() {
        assert_eq!(play(&form_2(2, &[SUM])), "refused J14\n");
        // The sheet's own refusals come first; J10 comes after.
        assert_eq!(play(&form_2(2, &[(4, [0, 0, 2], [0xFF, 7, 2])])), "refused J6\n");
        let last_of_large = (4, [0x00, 0xF8, 0x01], [0xFF, 0xFF, 0x01]);
        assert_eq!(play(&form_2(1, &[last_of_large])), "refused J6\n");
        let line = sheet_line(&form_2(2, &[last_of_large]));
        assert_eq!(answers(&format!("{line}play\n")), "refused J14\n");
        let told = on_large("", &format!("{line}play\n"));
        // 2,048 bytes FFh.
        assert!(told.ends_with("1 sum 06 1 0800\nend 06 steps 1 frames 1 pieces 0\n"), "{told}");
        let form_1 = sheet_line(&one_step(4, 0xF1000, 0xF10FF));
        assert_eq!(on_large("", &format!("{form_1}play\n")), "refused J14\n");
        let frames = |script: &str| run(&["frames"], script.as_bytes());
        assert_eq!(frames(&format!("{form_1}chip large\nsums 0\nroom 0\ngo\n")), "refused J14\n");
        assert_eq!(
            frames(&format!("{form_1}chip large\nsums 0\nroom 0\nchip small\ngo\n")),
            "refused J10\n"
        );
    }

    #[test]
    fn entries() {
        // Kinds 5 and 6 are none of form 1.
        assert_eq!(play(&one_step(5, 0xF1000, 0xF10FF)), "refused J4\n");
        assert_eq!(play(&one_step(6, 0x00FFFF, 0)), "refused J4\n");
        assert_eq!(play(&form_2(1, &[(7, LOCK.1, LOCK.2)])), "refused J4\n");
        assert_eq!(play(&form_2(1, &[(5, [1, 0x10, 0x0F], BLANK.2)])), "refused J6\n");
        for filler in 3..7 {
            let mut sheet = form_2(1, &[LOCK]);
            sheet[6 + filler] = 1;
            assert_eq!(play(&sheet), "refused J12\n");
            // The zero byte comes before it, the offset after it.
            sheet[6 + 8] += 1;
            assert_eq!(play(&sheet), "refused J12\n");
            sheet[6 + 7] = 1;
            assert_eq!(play(&sheet), "refused J5\n");
        }
        assert_eq!(play(&form_2(1, &[SHUT, SUM])), "refused J12\n");
        assert_eq!(play(&form_2(1, &[SHUT, SHUT])), "refused J12\n");
        let mut sheet = form_2(1, &[LOCK]);
        sheet[6 + 8] += 1;
        assert_eq!(play(&sheet), "refused J7\n");
    }

    #[test]
    fn a_lock_that_shuts_the_chip() {
        let line = sheet_line(&form_2(1, &[BLANK, (6, [0xEF, 0xFA, 0], [0; 3])]));
        let text = answers(&format!("{BRING_UP}{line}play\n?\nplay\n!\n?\n"));
        let due = "\
1 blank 06 1 0000
2 lock 06 1 0000
end 06 steps 2 frames 2 pieces 0
phase Silent
options EF FA FFFF FFFF
refused busy
!
phase Silent
options EF FA FFFF FFFF
";
        assert!(text.ends_with(due), "{text}");
    }

    #[test]
    fn a_lock_that_does_not() {
        // WRPR 0 and IDEN 0: the write after it stops, at the power-on an ID
        // is asked for.
        let mut sheet = vec![0xFE, 2, 1, 0, 2, 0];
        sheet.extend([6, 0xEF, 0xFE, 0, 0, 0, 0, 0, 30, 0, 0, 0]);
        sheet.extend([2, 0x00, 0x10, 0x0F, 0xFF, 0x10, 0x0F, 0, 30, 0, 0, 0]);
        sheet.extend([0xA5; 256]);
        let text = answers(&format!("{BRING_UP}{}play\n{BRING_UP}?\n", sheet_line(&sheet)));
        let due = "1 lock 06 1 0000\n2 write 10 2 0000\nend 10 steps 1 frames 3 pieces 0\n";
        assert!(text.contains(due), "{text}");
        assert!(text.ends_with("phase Ident\noptions EF FE FFFF FFFF\n"), "{text}");
    }

    #[test]
    fn a_blank_check_stops_and_has_no_note() {
        let line = sheet_line(&form_2(1, &[BLANK, SUM]));
        let text = answers(&format!("data F10FF 00\n{BRING_UP}{line}play\n"));
        let due = "sum\n1 blank 1B 1 0000\nend 1B steps 0 frames 1 pieces 0\n";
        assert!(text.ends_with(due), "{text}");
        // Of the flash alone: the options do not count.
        let text = answers(&format!("options EF FF FFFF FFFF\n{BRING_UP}{line}play\n"));
        assert!(text.contains("1 blank 06 1 0000\n"), "{text}");
    }

    #[test]
    fn the_player() {
        let frames = |script: &str| run(&["frames"], script.as_bytes());
        let blank = "> 01 08 32 00 10 0F FF 10 0F 00 89 03\n";
        let shut = "> 01 04 A0 FF FB 00 62 03\n";
        let lock = "> 01 04 A0 FF FF 00 5E 03\n";
        let ack = "< 02 01 06 F9 03\n";
        let end = |status: &str, steps: usize, frames: usize| {
            let sums = " 0000".repeat(2);
            format!("end {status} steps {steps} frames {frames} pieces 0\nsums{sums}\n")
        };
        let play = |entries: &[Entry], replies: &str| {
            frames(&format!("sums 2\n{}go\n{replies}", sheet_line(&form_2(1, entries))))
        };
        assert_eq!(
            play(&[BLANK, SHUT], &format!("{ack}<\n")),
            format!("{blank}{shut}{}", end("06", 2, 2))
        );
        // Nothing is due, and any byte at all is L1; to another lock a frame.
        for reply in [ack, "< 00\n", "< 02 01 10 EF 03\n"] {
            assert_eq!(play(&[SHUT], reply), format!("{shut}{}", end("L1", 0, 1)));
        }
        assert_eq!(play(&[LOCK], "<\n"), format!("{lock}{}", end("L1", 0, 1)));
        assert_eq!(play(&[LOCK], ack), format!("{lock}{}", end("06", 1, 1)));
        assert_eq!(play(&[LOCK], "< 02 01 10 EF 03\n"), format!("{lock}{}", end("10", 0, 1)));
        assert_eq!(play(&[BLANK], "< 02 01 1B E4 03\n"), format!("{blank}{}", end("1B", 0, 1)));
        assert_eq!(play(&[BLANK], "<\n"), format!("{blank}{}", end("L1", 0, 1)));
    }

    #[test]
    fn kinds_are_told_apart() {
        let frames = |script: &str| run(&["frames"], script.as_bytes());
        let kinds = [SUM, BLANK, LOCK, SHUT];
        for begun in kinds {
            for given in kinds {
                let (begun_line, given_line) =
                    (sheet_line(&form_2(1, &[begun])), sheet_line(&form_2(1, &[given])));
                let text = frames(&format!("{begun_line}go\n{given_line}< 02 01 06 F9 03\n"));
                assert_eq!(text.ends_with("refused P2\n"), begun.0 != given.0, "{text}");
            }
        }
        // The form is no part of a step.
        let form_1 = sheet_line(&sheet_16(1));
        let form_2 = sheet_line(&sheet_16(2));
        let text = frames(&format!("{form_1}go\n{form_2}< 02 01 06 F9 03\n"));
        assert!(text.ends_with("> 01 07 40 00 10 0F FF 10 0F 7C 03\n"), "{text}");
    }

    #[test]
    fn moves() {
        let moved = |way: &str, sheet: &[u8]| ended(&["form", way], sheet);
        let well = |output: &[u8]| Ended {
            output: output.to_vec(),
            errors: String::new(),
            status: Some(0),
        };
        let refused = |number: usize| Ended {
            output: Vec::new(),
            errors: format!("form: refused J{number}\n"),
            status: Some(1),
        };
        assert_eq!(moved("up", &sheet_16(1)), well(&sheet_16(2)));
        assert_eq!(moved("down", &sheet_16(2)), well(&sheet_16(1)));
        assert_eq!(moved("up", &sheet_16(2)), refused(15));
        assert_eq!(moved("down", &sheet_16(1)), refused(15));
        assert_eq!(moved("up", &[0, 0]), well(&[0xFE, 2, 1, 0, 0, 0]));
        assert_eq!(moved("down", &[0xFE, 2, 1, 0, 0, 0]), well(&[0, 0]));
        for sheet in
            [form_2(2, &[SUM]), form_2(1, &[BLANK]), form_2(1, &[LOCK]), form_2(1, &[SHUT])]
        {
            assert_eq!(moved("down", &sheet), refused(15));
            assert_eq!(moved("up", &sheet), refused(15));
        }
        // The sheet's own number first; J14 is none of a move.
        assert_eq!(moved("down", &form_2(1, &[SHUT, SUM])), refused(12));
        assert_eq!(moved("down", &[0]), refused(1));
        assert_eq!(moved("up", &[65, 0]), refused(2));
        // The most bytes that an accepted sheet can have: 21 steps, 255 pages.
        let mut large = vec![21, 0];
        let mut offset = 2 + 12 * 21;
        for number in 0..21u32 {
            let (kind, ead) = match number {
                0 => (3, 0x07FFFu32),
                1 => (3, 0x077FF),
                2 => (3, 0xF16FF),
                _ => (4, 0x007FF),
            };
            let sad = if number == 2 { 0xF1000u32 } else { 0 };
            large.push(kind);
            large.extend(&sad.to_le_bytes()[..3]);
            large.extend(&ead.to_le_bytes()[..3]);
            large.push(0);
            large.extend(u32::to_le_bytes(offset));
            offset += if kind == 3 { ead + 1 - sad } else { 0 };
        }
        large.resize(offset as usize, 0xFF);
        assert_eq!(large.len(), 65_534);
        let up = moved("up", &large);
        assert_eq!((up.output.len(), up.status), (65_538, Some(0)));
        assert_eq!(moved("down", &up.output), well(&large));
    }

    #[test]
    fn files_and_results() {
        let dir = std::env::temp_dir().join(format!("sheetplay-form-{}", std::process::id()));
        let place = dir.to_str().expect("a path of text");
        assert_eq!(ended(&["generate-files", "form", "106", "20", place], &[]).status, Some(0));
        let results = run(&["form-results", place], &[]);
        let mut due = String::new();
        for number in 1..=20 {
            let name = format!("{number:04}.sheet");
            let sheet = std::fs::read(dir.join(&name)).expect("the file is there");
            for way in ["up", "down"] {
                let Ended { output, errors, .. } = ended(&["form", way], &sheet);
                if errors.is_empty() {
                    let bytes: String = output.iter().map(|byte| format!(" {byte:02X}")).collect();
                    due.push_str(&format!("{name} {way} sheet {}{bytes}\n", output.len()));
                } else {
                    due.push_str(&format!("{name} {way} {errors}"));
                }
            }
        }
        assert_eq!(results, due);
        std::fs::remove_dir_all(dir).expect("the files are removed");
    }

    #[test]
    fn meaning_with_options() {
        assert_eq!(run(&["meaning-check", "106", "1000"], &[]), "ok 1000\n");
    }
}

mod m107_two_writes_to_one_page {
    use super::*;

    const ERASE: u8 = 1;
    const WRITE: u8 = 2;
    const VERIFY: u8 = 3;
    const SUM: u8 = 4;

    /// A sheet over data blocks: kind, first block, last block; all bodies FFh.
    /// Form 2 if a chip is named.
    fn sheet(chip: Option<u8>, steps: &[(u8, u8, u8)]) -> Vec<u8> {
        let mut sheet = match chip {
            Some(chip) => vec![0xFE, 2, chip, 0],
            None => Vec::new(),
        };
        sheet.extend([steps.len() as u8, 0]);
        let mut offset = sheet.len() + 12 * steps.len();
        for &(kind, first, last) in steps {
            sheet.extend([kind, 0x00, 0x10 + first, 0x0F, 0xFF, 0x10 + last, 0x0F, 0x00]);
            sheet.extend((offset as u32).to_le_bytes());
            if kind == WRITE || kind == VERIFY {
                offset += 256 * usize::from(last + 1 - first);
            }
        }
        sheet.resize(offset, 0xFF);
        sheet
    }

    fn is_refused(steps: &[(u8, u8, u8)]) -> bool {
        let told = run(&["play"], &sheet(None, steps));
        assert_eq!(run(&["play"], &sheet(Some(1), steps)), told);
        assert!(told == "refused J13\n" || told.contains("\nend 06 "), "{told}");
        told == "refused J13\n"
    }

    #[test]
    fn with_and_without_an_erase_between() {
        assert!(is_refused(&[(WRITE, 0, 0), (WRITE, 0, 0)]));
        assert!(!is_refused(&[(WRITE, 0, 0), (ERASE, 0, 0), (WRITE, 0, 0)]));
        assert!(is_refused(&[
            (ERASE, 0, 0),
            (WRITE, 0, 0),
            (VERIFY, 0, 0),
            (SUM, 0, 0),
            (WRITE, 0, 0)
        ]));
        assert!(!is_refused(&[(WRITE, 0, 0), (VERIFY, 0, 0), (VERIFY, 0, 0)]));
        // Pages in common, and an erase of some, or of more.
        assert!(is_refused(&[(WRITE, 0, 2), (WRITE, 2, 4)]));
        assert!(!is_refused(&[(WRITE, 0, 2), (WRITE, 3, 4)]));
        assert!(is_refused(&[(WRITE, 0, 2), (ERASE, 0, 1), (WRITE, 1, 2)]));
        assert!(!is_refused(&[(WRITE, 0, 2), (ERASE, 1, 7), (WRITE, 1, 7)]));
        assert!(is_refused(&[(WRITE, 0, 2), (ERASE, 1, 7), (WRITE, 1, 7), (WRITE, 0, 0)]));
        // Between the second and the third there is none.
        assert!(is_refused(&[(WRITE, 0, 0), (ERASE, 0, 0), (WRITE, 0, 0), (WRITE, 0, 0)]));
        assert!(is_refused(&[(WRITE, 0, 0), (WRITE, 0, 0), (ERASE, 0, 0)]));
    }

    #[test]
    fn order() {
        let twice = [(WRITE, 0, 0), (WRITE, 0, 0)];
        let mut left_over = sheet(None, &twice);
        left_over.push(0);
        assert_eq!(run(&["play"], &left_over), "refused J9\n");
        assert_eq!(run(&["play"], &sheet(Some(2), &twice)), "refused J13\n");
        let script = format!("{}sums 0\ngo\n", sheet_line(&sheet(None, &twice)));
        assert_eq!(run(&["frames"], script.as_bytes()), "refused J13\n");
        // A move names it before J15.
        for chip in [None, Some(1), Some(2)] {
            for way in ["up", "down"] {
                assert_eq!(
                    ended(&["form", way], &sheet(chip, &twice)).errors,
                    "form: refused J13\n"
                );
            }
        }
    }
}

mod m111_other_programmers_captures {
    use super::*;

    /// Trial 1 from power-on.
    const SESSION: &str = "\
!
> 3A
> 01 03 9A 00 21 42 03
< 02 03 06 20 00 D7 03
> 01 01 00 FF 03
< 02 01 06 F9 03
";

    fn verdict(capture: &str) -> String {
        let Ended { output, errors, status } = ended(&["capture"], capture.as_bytes());
        let told = String::from_utf8(output).expect("the verdict is text");
        let due = if told == "accepted\n" { 0 } else { 1 };
        assert_eq!((errors.as_str(), status), ("", Some(due)), "{told}");
        String::from(told.trim_end())
    }

    #[test]
    fn accepted() {
        assert_eq!(verdict(SESSION), "accepted");
        assert_eq!(verdict(&SESSION.to_lowercase()), "accepted");
        assert_eq!(verdict("!\n"), "accepted");
        assert_eq!(verdict("!\n!\n> 3b\n> 01 01 00 FF 03\n!\n"), "accepted");
        assert_eq!(verdict(&format!("{SESSION}{SESSION}")), "accepted");
        // All answers to a line are one answer.
        let one = "> 01 01 00 FF 03 01 01 00 FF 03\n< 02 01 06 F9 03 02 01 06 F9 03\n";
        assert_eq!(verdict(&format!("{SESSION}{one}")), "accepted");
        // Half a frame has no answer.
        let halves = "> 01 01\n> 00 FF 03\n< 02 01 06 F9 03\n";
        assert_eq!(verdict(&format!("{SESSION}{halves}")), "accepted");
    }

    #[test]
    fn wrong_lines() {
        assert_eq!(verdict(""), "wrong line 1");
        assert_eq!(verdict("> 3A\n"), "wrong line 1");
        assert_eq!(verdict("< 00\n"), "wrong line 1");
        // An answer where there is none.
        assert_eq!(verdict("!\n< 00\n"), "wrong line 2");
        assert_eq!(verdict("!\n> 3A\n< 00\n"), "wrong line 3");
        assert_eq!(verdict(&format!("{SESSION}< 02 01 06 F9 03\n")), "wrong line 7");
        // A byte changed, one more, one less.
        assert_eq!(verdict(&SESSION.replace("D7", "D6")), "wrong line 4");
        assert_eq!(verdict(&SESSION.replace("D7 03", "D7 03 00")), "wrong line 4");
        assert_eq!(verdict(&SESSION.replace("D7 03", "D7")), "wrong line 4");
        // An answer missing, in the middle and past the end.
        assert_eq!(verdict(&SESSION.replace("< 02 03 06 20 00 D7 03\n", "")), "wrong line 4");
        assert_eq!(verdict(&SESSION.replace("< 02 01 06 F9 03\n", "")), "wrong line 6");
        assert_eq!(verdict(&SESSION.replace("< 02 01 06 F9 03\n", "!\n")), "wrong line 6");
        // An answer in two lines, and an answer that belongs to two lines.
        assert_eq!(verdict(&SESSION.replace("F9 03\n", "F9\n< 03\n")), "wrong line 6");
        let late = "> 01 01 00 FF 03\n> 01 01 00 FF 03\n< 02 01 06 F9 03 02 01 06 F9 03\n";
        assert_eq!(verdict(&format!("{SESSION}{late}")), "wrong line 8");
    }

    #[test]
    fn bad_form() {
        for line in [
            "\n",
            "! \n",
            " !\n",
            "!!\n",
            ">\n",
            "> \n",
            "<\n",
            "< \n",
            ">3A\n",
            ">  3A\n",
            "> 3A \n",
            "> 3\n",
            "> 3AA\n",
            "> 3G\n",
            "> 3A\r\n",
            "?\n",
            "> 3A\t00\n",
            "! 00\n",
            "!",
            "> 3A",
            "+3A\n",
            "> +A\n",
        ] {
            assert_eq!(verdict(line), "bad form line 1", "{line:?}");
            assert_eq!(verdict(&format!("{SESSION}{line}")), "bad form line 7", "{line:?}");
            // Before the comparison of that line: here an answer is missing.
            let missing = SESSION.replace("< 02 01 06 F9 03\n", line);
            assert_eq!(verdict(&missing), "bad form line 6", "{line:?}");
        }
        // A wrong line before it comes first.
        assert_eq!(verdict("!\n< 00\n\n"), "wrong line 2");
    }

    #[test]
    fn a_stated_chip() {
        let dir = std::env::temp_dir().join(format!("sheetplay-chip-{}", std::process::id()));
        std::fs::create_dir_all(&dir).expect("a directory");
        let path = dir.join("a.chip");
        let with = |chip: &str, capture: &str| {
            std::fs::write(&path, chip).expect("the chip file is written");
            ended(&["capture", path.to_str().expect("a path of text")], capture.as_bytes())
        };
        let told = |chip: &str, capture: &str| {
            let Ended { output, errors, .. } = with(chip, capture);
            assert_eq!(errors, "");
            String::from(String::from_utf8(output).expect("text").trim_end())
        };
        assert_eq!(told("", SESSION), "accepted");
        assert_eq!(told("chip large\nfresh\n", SESSION), "accepted");
        // IFPR 0: Silent. IDEN 0: Reset is not allowed yet.
        assert_eq!(told("options FF FB FFFF FFFF\n", SESSION), "wrong line 4");
        assert_eq!(told("options FF FE FFFF FFFF\n", SESSION), "wrong line 6");
        let window = SESSION.replace("01 01 00 FF", "01 01 AD 52");
        let small = window.replace("F9 03\n", "F9 03 02 04 00 80 0F 80 ED 03\n");
        let large = window.replace("F9 03\n", "F9 03 02 04 00 80 3F 80 BD 03\n");
        assert_eq!(told("chip small\n", &small), "accepted");
        assert_eq!(told("chip small\n", &large), "wrong line 6");
        assert_eq!(told("chip 64 32\n", &large), "accepted");
        // Blank Check of F1000h to F10FFh, and no note on the wire.
        let blank = SESSION.replace("> 01 01 00 FF 03", "> 01 08 32 00 10 0F FF 10 0F 00 89 03");
        let dirty = blank.replace("06 F9 03\n", "1B E4 03\n");
        assert_eq!(told("code 00000 00\n", &blank), "accepted");
        assert_eq!(told("data F1000 00\n", &dirty), "accepted");
        assert_eq!(told("chip 16 32\n", SESSION), "refused D0");
        assert_eq!(with("chip 16 32\n", SESSION).status, Some(1));
        for (chip, line) in [
            ("!\n", 1),
            ("fresh\n?\n", 2),
            ("fresh\n> 3A\n", 2),
            ("sheet 00\n", 1),
            ("fresh", 1),
            ("chip 1 1\ncode 00000 00\n", 2),
        ] {
            let found = with(chip, SESSION);
            assert_eq!(found.errors, format!("capture: CHIPFILE: bad line {line}\n"));
            assert_eq!((found.output.len(), found.status), (0, Some(2)));
        }
        std::fs::remove_dir_all(dir).expect("the files are removed");
    }

    #[test]
    fn too_long_a_capture() {
        let text = "!\n".repeat(4_194_304 / 2);
        assert_eq!(verdict(&text), "accepted");
        let found = ended(&["capture"], format!("{text}!").as_bytes());
        assert_eq!(found.errors, "capture: input over 4,194,304 bytes\n");
        assert_eq!((found.output.len(), found.status), (0, Some(2)));
    }

    #[test]
    fn files_and_results() {
        let dir = std::env::temp_dir().join(format!("sheetplay-capture-{}", std::process::id()));
        let place = dir.to_str().expect("a path of text");
        assert_eq!(ended(&["generate-files", "capture", "111", "40", place], &[]).status, Some(0));
        let results = run(&["capture-results", place], &[]);
        let mut due = String::new();
        for number in 1..=40 {
            let capture = std::fs::read(dir.join(format!("{number:04}.capture"))).expect("a file");
            let chip = dir.join(format!("{number:04}.chip"));
            let told = run(&["capture", chip.to_str().expect("a path of text")], &capture);
            due.push_str(&format!("{number:04}.capture {told}"));
        }
        assert_eq!(results, due);
        std::fs::remove_dir_all(dir).expect("the files are removed");
    }
}

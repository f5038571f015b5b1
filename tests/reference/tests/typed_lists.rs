//! Every reading of the rules about typed lists, each shown on both of its
//! sides, in the order in which they stand there.

use reference::bench::Bench;
use reference::codes::{Placed, Refusal};
use reference::command::TABLE;
use reference::programs::{assembler, lister, typed, Streams};
use reference::run::{Counts, LONGEST_LIST};
use reference::text::{assemble, line_shown, list_text, LONGEST_TEXT};
use reference::typed::run_typed;
use reference::wire::bytes_of;

const FLUSH: [u32; 2] = [0x015a_0002, 0x015a_0002];
const STOP: [u32; 2] = [0x7f05_0002, 0x7f05_0002];
const FILL: u8 = 0xaa;

/// Code, place and parameter of an answer.
type Words = (u8, u32, u8);

fn words<T>(answer: Result<T, Placed>) -> Words {
    match answer {
        Ok(_) => (0, 0, 0),
        Err(Placed { place, refusal }) => (refusal.code, place, refusal.finding.parameter),
    }
}

/// What a text is assembled into; a refusal must leave the room alone.
fn assembled(text: &[u8]) -> Result<Vec<u8>, Words> {
    let mut room = [FILL; 5000];
    let answer = assemble(text, &mut room);
    let written = answer.unwrap_or(0);
    assert!(room[written..].iter().all(|byte| *byte == FILL));
    match answer {
        Ok(written) => Ok(room[..written].to_vec()),
        Err(_) => Err(words(answer)),
    }
}

/// Code, line and parameter for a text.
fn refused(text: &str) -> Words {
    assembled(text.as_bytes()).err().unwrap_or_default()
}

/// The text that a raw list gives; a refusal must leave the room alone.
fn listed(raw: &[u8]) -> Result<String, Words> {
    let mut room = [FILL; 9000];
    let answer = list_text(raw, &mut room);
    let written = answer.unwrap_or(0);
    assert!(room[written..].iter().all(|byte| *byte == FILL));
    match answer {
        Ok(written) => Ok(String::from_utf8_lossy(&room[..written]).into_owned()),
        Err(_) => Err(words(answer)),
    }
}

fn goal(x: u32, y: u32) -> Vec<u8> {
    bytes_of(&[0x0153_0004, x, y, 0x0153_0004 ^ x ^ y])
}

#[test]
fn a_line_ends_at_a_line_feed_and_the_last_needs_none() {
    let two = bytes_of(&[STOP, STOP].concat());
    for text in ["stop\nstop\n", "stop\nstop", "\nstop\n\nstop\n\n"] {
        assert_eq!(assembled(text.as_bytes()).as_ref(), Ok(&two));
    }
    for text in ["", "\n", "\n\n\n"] {
        assert_eq!(assembled(text.as_bytes()), Ok(Vec::new()));
    }
    assert_eq!(refused("\n\nx"), (30, 3, 0));
    assert_eq!(refused("\n\nx\n"), (30, 3, 0));
}

#[test]
fn a_carriage_return_is_a_byte_like_any_other() {
    assert_eq!(refused("stop\r\n"), (30, 1, 0));
    assert_eq!(refused("run 1\r\n"), (31, 1, 0));
    assert_eq!(refused("\r\n"), (30, 1, 0));
    assert_eq!(refused("#\r\n"), (0, 0, 0));
    assert_eq!(refused("stop\rstop"), (30, 1, 0));
}

#[test]
fn empty_lines_and_remarks_carry_no_command_but_are_counted() {
    assert_eq!(refused("# one\n\n#open 9\nx\n"), (30, 4, 0));
    assert_eq!(refused(" # one\n"), (30, 1, 0));
    assert_eq!(refused("+#\n"), (30, 1, 0));
    assert_eq!(refused("stop #\n"), (32, 1, 0));
}

#[test]
fn each_argument_stands_after_exactly_one_space() {
    assert_eq!(refused(" run 1"), (30, 1, 0));
    assert_eq!(refused("run  1"), (32, 1, 0));
    assert_eq!(refused("run 1 "), (32, 1, 0));
    assert_eq!(refused("run "), (31, 1, 0));
    assert_eq!(refused("img_region  1"), (31, 1, 0));
    assert_eq!(refused("img_region 1 "), (31, 1, 0));
    assert_eq!(refused("stop "), (32, 1, 0));
    assert_eq!(refused("run\t1"), (30, 1, 0));
}

#[test]
fn the_flag_stands_right_before_the_name() {
    assert_eq!(refused("+ open 1"), (30, 1, 0));
    assert_eq!(refused("++run 1"), (30, 1, 0));
    assert_eq!(refused("+"), (30, 1, 0));
    assert_eq!(
        assembled(b"+wait 2"),
        Ok(bytes_of(&[0x7f04_8003, 0x0002_0000, 0x7f06_8003]))
    );
}

#[test]
fn names_are_the_tables_in_lower_case() {
    for row in &TABLE {
        let arguments = " 1".repeat(row.arguments.len());
        let flag = if row.name == "wait" { "+" } else { "" };
        let good = format!("{flag}{}{arguments}", row.name);
        assert_eq!(refused(&good), (0, 0, 0), "{good}");
        assert_eq!(refused(&good.to_uppercase()), (30, 1, 0));
        assert_eq!(refused(&format!("+{arguments}")), (30, 1, 0));
    }
    assert_eq!(refused("runs 1"), (30, 1, 0));
    assert_eq!(refused("ru 1"), (30, 1, 0));
}

#[test]
fn a_whole_number_has_one_to_five_digits() {
    assert_eq!(assembled(b"run 00007"), assembled(b"run 7"));
    assert_eq!(refused("run 000007"), (31, 1, 0));
    assert_eq!(refused("img_image 100000 1"), (31, 1, 0));
    for word in ["x", "-1", "+1", "1.", "1.5", "0x1", "1e0", "1\0", "\u{661}"] {
        assert_eq!(refused(&format!("run {word}")), (31, 1, 0), "{word}");
    }
}

#[test]
fn a_number_is_judged_before_it_is_cut_to_its_field() {
    assert_eq!(refused("img_pwr 256"), (8, 1, 1));
    assert_eq!(refused("img_image 70000 1"), (8, 1, 1));
    assert_eq!(refused("img_image 1 65537"), (8, 1, 2));
    assert_eq!(refused("img_image 65535 65535"), (0, 0, 0));
    assert_eq!(refused("+wait 600"), (0, 0, 0));
    assert_eq!(refused("+wait 601"), (8, 1, 1));
    assert_eq!(refused("run 99999"), (8, 1, 1));
}

#[test]
fn a_goal_is_a_whole_number_alone_or_with_quarters() {
    let text = "trk_goal 511.5 0\ntrk_goal 0.25 00001.75\n";
    let list = [goal(0x43ff_c000, 0), goal(0x3e80_0000, 0x3fe0_0000)];
    assert_eq!(assembled(text.as_bytes()), Ok(list.concat()));
    for word in [
        ".5", "1.", "1.50", "1.125", "1.0", "1.7", "000001.5", "1.5.5",
    ] {
        assert_eq!(refused(&format!("trk_goal 1 {word}")), (31, 1, 0), "{word}");
    }
}

#[test]
fn a_goal_is_judged_by_the_bits_of_its_single() {
    assert_eq!(
        assembled(b"trk_goal 1023.75 1"),
        Ok(goal(0x447f_f000, 0x3f80_0000))
    );
    assert_eq!(refused("trk_goal 1024 0"), (8, 1, 1));
    assert_eq!(refused("trk_goal 0 1024.25"), (8, 1, 2));
    assert_eq!(refused("trk_goal 99999.75 99999"), (8, 1, 1));
}

#[test]
fn every_goal_that_can_be_typed_is_exact() {
    for quarters in 0..4096 {
        let endings = ["", ".25", ".5", ".75"];
        let text = format!("trk_goal {}{} 0\n", quarters / 4, endings[quarters % 4]);
        let raw = assembled(text.as_bytes()).expect("it is below 1024");
        let bits = u32::from_be_bytes([raw[4], raw[5], raw[6], raw[7]]);
        assert_eq!(f64::from(f32::from_bits(bits)) * 4.0, quarters as f64);
        assert_eq!(listed(&raw), Ok(text));
    }
}

#[test]
fn on_a_line_the_order_is_30_32_31_8_then_9_or_10() {
    assert_eq!(refused("+opens x 9"), (30, 1, 0));
    assert_eq!(refused("+open x 9"), (32, 1, 0));
    assert_eq!(refused("img_region 9999 x"), (31, 1, 0));
    assert_eq!(refused("img_region 9999 1024"), (8, 1, 1));
    assert_eq!(refused("img_region 1 1024"), (8, 1, 2));
    assert_eq!(refused("+open 8"), (8, 1, 1));
    assert_eq!(refused("+open 7"), (9, 1, 0));
    assert_eq!(refused("wait 0"), (8, 1, 1));
    assert_eq!(refused("wait 1"), (10, 1, 0));
}

#[test]
fn the_first_bad_line_is_the_answer() {
    assert_eq!(refused("stop\nrun 8\nx\n"), (8, 2, 1));
    assert_eq!(refused("stop\nx\nrun 8\n"), (30, 2, 0));
}

#[test]
fn a_text_of_32768_bytes_is_read_and_one_of_32769_is_not() {
    let mut text = vec![b'#'; LONGEST_TEXT - 5];
    text.extend(b"\nstop");
    assert_eq!(assembled(&text), Ok(bytes_of(&STOP)));
    assert_eq!(line_shown(&text, 2), b"stop");
    text[0] = b'x';
    assert_eq!(assembled(&text), Err((30, 1, 0)));
    text.push(b'\n');
    assert_eq!(assembled(&text), Err((20, 0, 0)));
    assert_eq!(line_shown(&text, 2), b"");
}

#[test]
fn a_list_above_4096_bytes_is_refused_behind_every_bad_line_and_before_the_room() {
    let full = "stop\n".repeat(512);
    assert_eq!(
        assembled(full.as_bytes()).map(|raw| raw.len()),
        Ok(LONGEST_LIST)
    );
    assert_eq!(refused(&(full.clone() + "stop")), (20, 0, 0));
    assert_eq!(refused(&(full.clone() + "stop\nx")), (30, 514, 0));
    let small = &mut [FILL; 10];
    assert_eq!(
        words(assemble((full.clone() + "stop").as_bytes(), small)),
        (20, 0, 0)
    );
    assert_eq!(words(assemble(full.as_bytes(), small)), (24, 0, 0));
    assert_eq!(*small, [FILL; 10]);
}

#[test]
fn the_lister_gives_the_first_of_1_to_10_and_the_commands_number() {
    let bytes = |words: &[u32]| bytes_of(&[&FLUSH[..], words, &FLUSH].concat());
    assert_eq!(listed(&bytes(&[0x015a_0001])), Err((2, 2, 0)));
    assert_eq!(listed(&bytes(&[0x015a_0020])), Err((3, 2, 0)));
    assert_eq!(listed(&bytes(&[0x015a_0002, 0])), Err((4, 2, 0)));
    assert_eq!(
        listed(&bytes(&[0x0150_0003, 5 << 16, 0x0155_0003])),
        Err((8, 2, 2))
    );
    assert_eq!(listed(&bytes(&[0x7f05_8002, 0x7f05_8002])), Err((9, 2, 0)));
    assert_eq!(
        listed(&[&bytes_of(&FLUSH)[..], &[1]].concat()),
        Err((1, 2, 0))
    );
    assert_eq!(listed(&[0; LONGEST_LIST + 1]), Err((20, 0, 0)));
    assert_eq!(listed(&[0; LONGEST_LIST]), Err((2, 1, 0)));
}

#[test]
fn a_goal_that_no_text_says_gets_33() {
    for bits in [0x8000_0000, 1, 0x3e00_0000, 0x447f_ffff, 0x43ff_d000] {
        assert_eq!(listed(&goal(0, bits)), Err((33, 1, 0)), "{bits:x}");
        assert_eq!(listed(&goal(bits, 0)), Err((33, 1, 0)), "{bits:x}");
    }
    assert_eq!(listed(&goal(0x8000_0000, 0x4480_0000)), Err((8, 1, 2)));
    assert_eq!(
        listed(&goal(0, 0x43ff_c000)),
        Ok("trk_goal 0 511.5\n".into())
    );
    assert_eq!(words(list_text(&goal(1, 0), &mut [])), (33, 1, 0));
}

#[test]
fn a_listing_has_no_leading_zero_and_one_line_to_a_command() {
    let text = b"# a\n\n+trk_goal 00511.5 007\nimg_region 00000 01023\n+img_track 65535 1\nstop";
    let raw = assembled(text).expect("every line is good");
    let again = "+trk_goal 511.5 7\nimg_region 0 1023\n+img_track 65535 1\nstop\n";
    assert_eq!(listed(&raw), Ok(again.into()));
    assert_eq!(assembled(again.as_bytes()), Ok(raw));
}

#[test]
fn a_room_one_short_is_left_alone() {
    let raw = bytes_of(&STOP);
    let mut room = [FILL; 7];
    assert_eq!(words(assemble(b"stop", &mut room)), (24, 0, 0));
    assert_eq!(words(list_text(&raw, &mut room[..4])), (24, 0, 0));
    assert_eq!(room, [FILL; 7]);
    assert_eq!(list_text(&raw, &mut room), Ok(5));
    assert_eq!(&room, b"stop\n\xaa\xaa");
}

#[test]
fn the_line_shown_is_a_part_of_the_text() {
    let text = b"one\n\n\rthree \nfour";
    let lines: [&[u8]; 6] = [b"", b"one", b"", b"\rthree ", b"four", b""];
    for (number, line) in (0..).zip(lines) {
        assert_eq!(line_shown(text, number), line);
    }
    assert_eq!(line_shown(text, u32::MAX), b"");
    assert_eq!(line_shown(b"one\n", 2), b"");
}

#[test]
fn a_typed_run_tries_20_then_the_lines_then_20_then_21() {
    let long_kit = [0; LONGEST_LIST + 1];
    let long_list = "stop\n".repeat(513);
    let long_text = "#".repeat(LONGEST_TEXT + 1);
    let bad = long_list.clone() + "x";
    let cases: [(&[u8], &str, usize, Words); 6] = [
        (&long_kit, &bad, 0, (20, 0, 0)),
        (&[], &long_text, 0, (20, 0, 0)),
        (&[], &bad, 0, (30, 514, 0)),
        (&[], &long_list, 0, (20, 0, 0)),
        (&[], "tlm_flush", 12_287, (21, 0, 0)),
        (&[], "tlm_flush", 12_288, (0, 0, 0)),
    ];
    for (kit, text, size, expected) in cases {
        let (mut bench, mut room) = (Bench::default(), vec![FILL; size]);
        let answer = run_typed(&mut bench, kit, text.as_bytes(), &mut room);
        assert_eq!(words(answer), expected);
        if answer.is_err() {
            assert_eq!(bench, Bench::default());
            assert!(room.iter().all(|byte| *byte == FILL));
        }
    }
}

#[test]
fn the_pupils_records_carry_the_texts_line_numbers() {
    let (mut bench, mut room) = (Bench::default(), [FILL; 12_288]);
    let kit = bytes_of(&[FLUSH, FLUSH].concat());
    let text = b"\n# one\nopen 1\n\n+tlm_flush\nrun 1";
    let answer = run_typed(&mut bench, &kit, text, &mut room);
    assert_eq!(answer, Ok(Counts { kit: 2, pupil: 3 }));
    let lines: Vec<[u8; 4]> = room[..60]
        .chunks(12)
        .map(|it| [it[0], it[1], it[2], it[7]])
        .collect();
    let expected = [
        [1, 0, 0, 1],
        [1, 0, 0, 2],
        [2, 0, 0, 3],
        [2, 0, 0, 5],
        [2, 18, 0, 6],
    ];
    assert_eq!(lines, expected);
    assert!(room[60..].iter().all(|byte| *byte == FILL));
}

#[test]
fn the_typed_program_reports_or_says_why_not() {
    let said = |text: &str| {
        let streams = typed(text.as_bytes());
        assert!(streams.errors.is_empty());
        String::from_utf8_lossy(&streams.output).into_owned()
    };
    let kit = "from no code par val\nkit 1 0 0 0\nkit 2 0 0 0\nkit 3 0 0 0\nkit 4 0 0 0\n";
    assert_eq!(said(""), kit);
    assert_eq!(
        said("\nstop\n\nclose"),
        format!("{kit}pupil 2 0 0 0\npupil 4 11 0 0\n")
    );
    assert_eq!(said("\nstops"), "refused 30 line 2\n");
    assert_eq!(
        said("img_region 0 1024"),
        "refused 8 line 1 par 2 val 1024 from 0 to 1023\n"
    );
    assert_eq!(said(&"stop\n".repeat(513)), "refused 20\n");
}

#[test]
fn the_other_programs_write_a_refusal_to_standard_error() {
    let errors = |streams: Streams| {
        assert!(streams.output.is_empty());
        String::from_utf8_lossy(&streams.errors).into_owned()
    };
    assert_eq!(assembler(b"stop\n").output, bytes_of(&STOP));
    assert_eq!(assembler(b"stop\n").errors, b"");
    assert_eq!(
        errors(assembler(b"\nrun 9")),
        "refused 8 line 2 par 1 val 9 from 0 to 7\n"
    );
    assert_eq!(errors(assembler(&[b'#'; LONGEST_TEXT + 1])), "refused 20\n");
    assert_eq!(lister(&bytes_of(&STOP)).output, b"stop\n");
    assert_eq!(lister(&bytes_of(&STOP)).errors, b"");
    assert_eq!(errors(lister(&goal(1, 0))), "refused 33 number 1\n");
    assert_eq!(
        errors(lister(&goal(0, u32::MAX))),
        "refused 8 number 1 par 2 val 4294967295 from 0 to 1149239295\n"
    );
    assert_eq!(errors(lister(&[0; LONGEST_LIST + 1])), "refused 20\n");
}

#[test]
fn a_refusal_of_the_whole_has_no_place() {
    let refusal = Refusal::plain(24);
    assert_eq!(Placed::from(refusal).place, 0);
    assert_eq!(refusal.at(7).place, 7);
}

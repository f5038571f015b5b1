//! One small script for each sort of item, with the transcript it must give,
//! written by hand.

use reference::command::Kind;
use reference::comparison::items::{
    append, assemble, command, decoded, frame, fresh, housekeeping, line, list_text, now, passed,
    raw, read, run, second, shown, status, tags, typed,
};
use reference::replay::transcript;

const FRESH_STATUS: &str = "0000000100000001000000000000000000000000000000000000ffff00000000";

fn answer(items: &[Vec<u8>]) -> String {
    transcript(&items.concat())
}

#[test]
fn a_command_a_second_and_a_status() {
    let flush = raw(false, Kind::TlmFlush, [0; 2]);
    let items = [status(), command(&flush), second(), command(&[]), fresh()];
    let expected =
        format!("status {FRESH_STATUS}\ncommand 0 0 0 0 0\nsecond 0 0\ncommand 1 0 0 0 0\n");
    assert_eq!(answer(&items), expected);
}

#[test]
fn what_a_macro_hands_over() {
    let goal = raw(true, Kind::TrkGoal, [0x43ff_c000, 0x8000_0000]);
    let items = [
        now(Kind::Open, 4),
        append(Kind::TlmFlush, 0),
        append(Kind::Wait, 2),
        command(&goal),
        append(Kind::ImgPwr, 1),
        now(Kind::Close, 0),
        now(Kind::Run, 4),
        second(),
        second(),
        status(),
        second(),
        now(Kind::Run, 4),
        passed(9),
    ];
    let expected = "command 0 0 0 0 0\n".repeat(7)
        + "second 0 1\nhanded 0 tlm_flush\nsecond 0 0\n\
           status 000000010000000100000000000000000000000000000000000104ff00011001\n\
           second 0 2\nhanded 0 trk_goal 1140834304 2147483648\nhanded 0 img_pwr 1\n\
           command 0 0 0 0 0\npassed 3\n";
    assert_eq!(answer(&items), expected);
}

#[test]
fn a_run_of_two_lists() {
    let flush = raw(false, Kind::TlmFlush, [0; 2]);
    let bad = raw(false, Kind::ImgImage, [5, 0]);
    let items = [
        run(12_288, &flush, &bad),
        run(12_287, &flush, &bad),
        status(),
    ];
    let expected = "run 0 1 1\nrecord 010000000000000100000000\n\
                    record 020802000000000100000000\nrest same\n\
                    run 21 0 0\nrest same\n\
                    status 0000000100000001000000000000000000000000000000000001ffff00000000\n";
    assert_eq!(answer(&items), expected);
    assert_eq!(
        answer(&[run(0, &[0; 4097], &[])]),
        "run 20 0 0\nrest same\n"
    );
}

#[test]
fn the_bytes_shown() {
    let flush = raw(false, Kind::TlmFlush, [0; 2]);
    let items = [shown(&[], &flush, 2, 1), shown(&[], &flush, 1, 1)];
    assert_eq!(answer(&items), "shown 015a0002015a0002\nshown\n");
}

#[test]
fn a_frame_read_and_written() {
    let digits: Vec<u8> = (0..32)
        .map(|at| u8::from_str_radix(&FRESH_STATUS[2 * at..2 * at + 2], 16).unwrap_or(0))
        .collect();
    let items = [
        frame(32, &digits),
        frame(31, &digits),
        frame(32, &digits[1..]),
    ];
    let expected = format!("frame 0 0 {FRESH_STATUS}\nframe 0 24\nframe 22\n");
    assert_eq!(answer(&items), expected);
    assert_eq!(answer(&[frame(32, &[0; 32])]), "frame 23\n");
}

#[test]
fn a_command_read_and_written() {
    let wait = raw(true, Kind::Wait, [2, 0]);
    let items = [read(12, &wait), read(11, &wait), read(12, &wait[..11])];
    let expected = "read 0 0 0 0 0 0 7f048003000200007f068003\nread 0 0 0 0 0 24\nread 3 0 0 0 0\n";
    assert_eq!(answer(&items), expected);
}

#[test]
fn a_decoded_command() {
    let items = [
        decoded(2, 15, [0x101, 7]),
        decoded(0, 6, [0x43ff_c000, 0x7fc0_0000]),
        decoded(1, 12, [600, 0]),
        decoded(1, 10, [0, 0]),
    ];
    let expected = "decoded 0 0 0 0 0 0 011400030100000000140003\n\
                    decoded 8 2 2143289344 0 1149239295 8\n\
                    decoded 11 0 0 0 0 0 7f048003025800007d5c8003\ndecoded 9 0 0 0 0 9\n";
    assert_eq!(answer(&items), expected);
}

#[test]
fn a_text_assembled() {
    let items = [
        assemble(9, b"\nstop"),
        assemble(7, b"stop"),
        assemble(9, b"\nrun 8"),
        assemble(9, b"\n"),
    ];
    let expected = "assembled 0 0 0 0 0 0 7f0500027f050002\nrest same\n\
                    assembled 24 0 0 0 0 0\nrest same\n\
                    assembled 8 2 1 8 0 7\nrest same\n\
                    assembled 0 0 0 0 0 0\nrest same\n";
    assert_eq!(answer(&items), expected);
}

#[test]
fn a_list_as_text() {
    let flush = raw(false, Kind::TlmFlush, [0; 2]);
    let unsaid = raw(false, Kind::TrkGoal, [0, 0x8000_0000]);
    let bad = raw(false, Kind::ImgImage, [5, 0]);
    let items = [
        list_text(10, &flush),
        list_text(9, &flush),
        list_text(0, &[&flush[..], &unsaid].concat()),
        list_text(0, &[&flush[..], &bad].concat()),
        list_text(0, &[]),
    ];
    let expected = "listed 0 0 0 0 0 0 746c6d5f666c7573680a\nrest same\n\
                    listed 24 0 0 0 0 0\nrest same\n\
                    listed 33 2 0 0 0 0\nrest same\n\
                    listed 8 2 2 0 1 65535\nrest same\n\
                    listed 0 0 0 0 0 0\nrest same\n";
    assert_eq!(answer(&items), expected);
}

#[test]
fn a_typed_run() {
    let flush = raw(false, Kind::TlmFlush, [0; 2]);
    let items = [
        typed(12_288, &flush, b"\ntlm_flush\n#\nclose\n"),
        typed(12_288, &flush, b"stop\nimg_image 5 0\n"),
        typed(12_287, &flush, b"stop\n"),
        status(),
    ];
    let expected = "typed 0 0 0 0 0 0 1 2\n\
                    record 010000000000000100000000\nrecord 020000000000000200000000\n\
                    record 020b00000000000400000000\nrest same\n\
                    typed 8 2 2 0 1 65535 0 0\nrest same\n\
                    typed 21 0 0 0 0 0 0 0\nrest same\n\
                    status 0000000100000001000000000000000000000000000000000002ffff00000000\n";
    assert_eq!(answer(&items), expected);
}

#[test]
fn a_line_shown() {
    let text = b"stop\n\nrun";
    let items = [0, 1, 2, 3, 4, u32::MAX].map(|number| line(text, number));
    assert_eq!(
        answer(&items),
        "line\nline 73746f70\nline\nline 72756e\nline\nline\n"
    );
}

#[test]
fn the_bench_s_housekeeping() {
    let bad = raw(false, Kind::ImgImage, [5, 0]);
    let flush = raw(false, Kind::TlmFlush, [0; 2]);
    let items = [
        housekeeping(18),
        run(12_288, &bad, &[&flush[..], &bad, &flush].concat()),
        now(Kind::Open, 2),
        append(Kind::TlmFlush, 0),
        housekeeping(255),
        housekeeping(17),
        typed(12_288, &[], b"#\nopen 2\n"),
        housekeeping(18),
    ];
    let expected = "housekeeping 0 0 0 0 192 1204000000001304000000001401001501c0\n\
                    run 0 1 3\nrecord 010802000000000100000000\n\
                    record 020000000000000100000000\nrecord 020802000000000200000000\n\
                    record 020000000000000300000000\nrest same\n\
                    command 0 0 0 0 0\ncommand 0 0 0 0 0\n\
                    housekeeping 0 3 2 8 191 1204000000031304000000021401081501bf\n\
                    housekeeping 24\n\
                    typed 0 0 0 0 0 0 0 1\nrecord 020c00000000000200000000\nrest same\n\
                    housekeeping 0 2 2 12 191 12040000000213040000000214010c1501bf\n";
    assert_eq!(answer(&items), expected);
}

#[test]
fn tagged_items_read_and_written() {
    let bytes = [
        0x12, 4, 0, 0, 1, 2, 0x13, 4, 0xff, 0xff, 0xff, 0xff, 0x14, 1, 50, 0x15, 1, 255,
    ];
    let mut other_tag = bytes;
    other_tag[12] = 0x15;
    let mut other_length = bytes;
    other_length[16] = 0;
    let items = [
        tags(18, &bytes),
        tags(17, &bytes),
        tags(18, &bytes[..17]),
        tags(18, &other_tag),
        tags(18, &other_length),
        tags(18, &[&bytes[..], &[0x12]].concat()),
    ];
    let expected = "tags 0 258 4294967295 50 255 0 1204000001021304ffffffff1401321501ff\n\
                    tags 0 258 4294967295 50 255 24\n\
                    tags 47\ntags 48\ntags 49\ntags 50\n";
    assert_eq!(answer(&items), expected);
}

#[test]
fn scripts_that_end_badly() {
    assert_eq!(answer(&[]), "");
    assert_eq!(answer(&[second(), vec![1, 1]]), "second 0 0\nbad script\n");
    assert_eq!(answer(&[vec![10], second()]), "bad script\n");
    assert_eq!(answer(&[vec![14]]), "bad script\n");
    assert_eq!(answer(&[vec![15, 18, 1]]), "bad script\n");
    assert_eq!(answer(&[vec![16], second()]), "bad script\n");
    assert_eq!(transcript(&vec![4; 65_536]), "");
    assert_eq!(transcript(&vec![4; 65_537]), "too long\n");
}

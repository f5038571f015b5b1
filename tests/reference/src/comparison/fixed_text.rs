//! Fixed episodes about whole typed lists and raw ones: line feeds, sizes, rooms,
//! every quarter there and back, listing refused, typed runs, lines shown.

use super::fixed_wire::{faulty, flush, good, of_length};
use super::items::{assemble, line, list_text, now, raw, run, status, typed, Item};
use super::texts::{lengthened, quarters_word, QUARTERS_BELOW_1024, UNSAID_GOALS};
use crate::command::{FlagRule, Kind, LARGEST_GOAL_BITS, MINUS_ZERO_BITS, TABLE};
use crate::run::LONGEST_LIST;
use crate::text::LONGEST_TEXT;

/// Room for whatever a list or a text can give.
const ROOM: u16 = 13_000;
const REPORT_ROOM: u16 = 12_288;
/// A text, lacking nothing but a line feed at its end.
const SAMPLE: &[u8] = b"# a list\n\nimg_pwr 1\n\n+tlm_flush\nopen 3\n+wait 2\n#\ntrk_goal 511.5 0";

pub fn episodes() -> Vec<Vec<Item>> {
    let mut episodes = vec![line_feeds(), lines_shown(), bad_line_behind(), rooms()];
    episodes.extend(list_sizes());
    episodes.extend(text_sizes());
    episodes.extend(every_quarter());
    episodes.extend([goals_listed(), lists_ended(), lists_refused()]);
    episodes.extend([numbers_of_records(), orders_of_run(), kits()]);
    episodes
}

/// Texts of nothing, of line feeds alone, and with feeds in every place.
fn line_feeds() -> Vec<Item> {
    let texts: [&[u8]; 16] = [
        b"",
        b"\n",
        b"\n\n\n",
        b"#",
        b"#\n",
        b"stop",
        b"stop\n",
        b"\nstop",
        b"stop\n\n",
        b"stop\nstop",
        b"stop\n#stop\nstop\n",
        b"stop\r\nstop\r\n",
        b"stop\rstop\r",
        b"\n\n#\n\nx",
        b"\n\n#\n\nx\n",
        b"stop\n \nstop\n",
    ];
    let mut items = Vec::new();
    for text in texts {
        items.extend([assemble(ROOM, text), assemble(0, text)]);
        items.push(typed(REPORT_ROOM, &flush(), text));
        items.extend((0..=6).map(|number| line(text, number)));
    }
    items
}

fn lines_shown() -> Vec<Item> {
    let ended = [SAMPLE, b"\n"].concat();
    let mut items = Vec::new();
    for text in [SAMPLE, &ended] {
        items.extend((0..=12).map(|number| line(text, number)));
        let large = [256, 259, 0x0001_0003, 0x0100_0003, u32::MAX - 1, u32::MAX];
        items.extend(large.map(|number| line(text, number)));
    }
    let far = lines("\n", 699, "x");
    items.extend([1, 699, 700, 701].map(|number| line(&far, number)));
    items
}

/// So many lines of the one and then of the other.
fn lines(first: &str, times: usize, then: &str) -> Vec<u8> {
    (first.repeat(times) + then).into()
}

/// Raw lists of just 4,096 bytes and just above, in room that suffices and in
/// room that does not.
fn list_sizes() -> Vec<Vec<Item>> {
    let goal = "trk_goal 1 1\n";
    let texts = [
        lines("stop\n", 511, ""),
        lines("stop\n", 512, "#\n\n"),
        lines("stop\n", 513, ""),
        lines("+run 1\n", 341, ""),
        lines("+run 1\n", 341, "stop\n"),
        lines("+run 1\n", 342, ""),
        lines("+run 1\n", 340, goal),
        lines(goal, 256, ""),
        lines(goal, 256, "stop\n"),
        lines("stop\n", 600, ""),
    ];
    let sizes = |text: &Vec<u8>| {
        let mut items = [4095, 4096, 4097].map(|room| assemble(room, text)).to_vec();
        items.push(typed(REPORT_ROOM, &[], text));
        items
    };
    texts.iter().map(sizes).collect()
}

/// A bad line behind a list that is just not too long, or is, with room and
/// without.
fn bad_line_behind() -> Vec<Item> {
    let mut items = Vec::new();
    for times in [512, 513] {
        for bad in ["stops\n", "stop 1\n", "run x\n", "run 8\n", "wait 1\n"] {
            let text = lines("stop\n", times, bad);
            items.extend([assemble(ROOM, &text), assemble(0, &text)]);
        }
    }
    items
}

/// Texts of just 32,768 bytes and one more; each takes half a script.
fn text_sizes() -> Vec<Vec<Item>> {
    let long = |end: &[u8], more: usize| lengthened(end, LONGEST_TEXT + more);
    vec![
        vec![assemble(ROOM, &long(b"stop", 0)), assemble(ROOM, b"stop")],
        vec![assemble(ROOM, &long(b"stops", 0)), assemble(ROOM, b"stops")],
        vec![assemble(ROOM, &long(b"stop\n", 1))],
        vec![assemble(0, &long(b"stops\n", 1))],
        vec![typed(REPORT_ROOM, &flush(), &long(b"stop", 0)), status()],
        vec![typed(REPORT_ROOM, &flush(), &long(b"stop", 1)), status()],
        vec![typed(0, &flush(), &long(b"stops", 1)), status()],
        vec![line(&long(b"stop", 0), 2), line(b"stop", 1)],
        vec![line(&long(b"stop", 1), 2), line(b"stop", 1)],
        vec![assemble(ROOM, &vec![b'\n'; LONGEST_TEXT])],
        vec![line(
            &lines("\n", LONGEST_TEXT - 1, "x"),
            LONGEST_TEXT as u32,
        )],
        vec![assemble(ROOM, &[b'#'; 60_000])],
    ]
}

/// Every command there and back in a room that suffices, and in others.
fn rooms() -> Vec<Item> {
    let mut items = Vec::new();
    for row in &TABLE {
        let bytes = raw(row.flag == FlagRule::OnlyAppended, row.kind, good(row));
        for room in 0..=30 {
            items.push(list_text(room, &bytes));
        }
    }
    for room in (0..=50).chain([8192, 9000, 12287, 12288, 12999, 13000, 13001, 65535]) {
        items.push(assemble(room, b"stop\n\ntrk_goal 1.5 2\nrun 7\n"));
        items.push(assemble(room, b"stop\n\ntrk_goal 1.5 2\nrun 8\n"));
    }
    // The lister's longest texts, into what they need and one byte less.
    let wide = raw(true, Kind::ImgTrack, [65535, 65535]).repeat(340);
    let goal = raw(true, Kind::TrkGoal, [0x447f_f000; 2]);
    let longest = [wide, goal].concat();
    items.extend([7845, 7846, 7847].map(|room| list_text(room, &longest)));
    items
}

/// Each of the 4,096 quarters below 1024, typed, and as bits.
fn every_quarter() -> Vec<Vec<Item>> {
    let step = 512;
    let starts = (0..QUARTERS_BELOW_1024).step_by(step);
    starts
        .map(|start| {
            let (mut text, mut list) = (String::new(), Vec::new());
            for quarters in (start..start + step as u32).step_by(2) {
                let words = [quarters, quarters + 1].map(quarters_word).join(" ");
                text += &format!("trk_goal {words}\n");
                let goals = [quarters, quarters + 1].map(|it| (it as f32 / 4.0).to_bits());
                list.extend(raw(false, Kind::TrkGoal, goals));
            }
            vec![assemble(ROOM, text.as_bytes()), list_text(ROOM, &list)]
        })
        .collect()
}

/// Goals that the text cannot say, alone and together with some that are not
/// allowed, behind a good command and before a bad one.
fn goals_listed() -> Vec<Item> {
    let mut bits = UNSAID_GOALS.to_vec();
    bits.extend([0, 0x3e80_0000, 0x3e80_0001, 0x3f00_0000, 0x3f40_0000]);
    bits.extend([0x447f_f000, 0x447f_e000, 0x447f_c000]);
    bits.extend([LARGEST_GOAL_BITS + 1, 0x7f80_0000, 0x7fc0_0000, 0xbf80_0000]);
    bits.extend([MINUS_ZERO_BITS + 1, 0xffff_ffff]);
    let mut items = Vec::new();
    for first in &bits {
        for second in &bits {
            let goal = raw(true, Kind::TrkGoal, [*first, *second]);
            items.push(list_text(60, &goal));
        }
        let goal = raw(false, Kind::TrkGoal, [0x3f80_0000, *first]);
        let list = [&flush()[..], &goal, &[1, 2, 3]].concat();
        items.extend([list_text(60, &list), list_text(0, &list)]);
    }
    items
}

/// Lists ended by codes 1, 2 and 3, alone and behind good commands.
fn lists_ended() -> Vec<Item> {
    let mut items = Vec::new();
    for length in 0..=34 {
        let odd = of_length(Kind::TlmFlush.row(), 0, length);
        let list = [flush(), odd.clone(), flush()].concat();
        items.extend([list_text(60, &list), list_text(0, &list)]);
        items.push(list_text(60, &odd[..odd.len() - 1]));
    }
    for length in 0..=12 {
        let rest = &raw(false, Kind::ImgPwr, [1, 0])[..length];
        items.push(list_text(60, rest));
        items.push(list_text(60, &[&flush(), rest].concat()));
    }
    let full = flush().repeat(LONGEST_LIST / flush().len());
    items.extend([5120, 5119, 12287, 0].map(|room| list_text(room, &full)));
    let big = [&full[..], &[0]].concat();
    let bad = vec![0; LONGEST_LIST + 1];
    items.extend([list_text(ROOM, &big), list_text(0, &bad)]);
    items.push(list_text(ROOM, &bad[1..]));
    items
}

/// Every set of faults in the second command of a list.
fn lists_refused() -> Vec<Item> {
    let kinds = [
        Kind::ImgImage,
        Kind::TrkGoal,
        Kind::Wait,
        Kind::Open,
        Kind::Stop,
    ];
    let mut items = Vec::new();
    for kind in kinds {
        for faults in 0..128 {
            let list = [flush(), faulty(kind.row(), faults), flush()].concat();
            items.push(list_text(70, &list));
        }
    }
    items
}

/// Records of a typed list carry the lines' numbers, whatever the kit has.
fn numbers_of_records() -> Vec<Item> {
    let ended_early = [&flush()[..], &[1, 2, 3]].concat();
    let damaged = faulty(Kind::ImgPwr.row(), 64);
    let kits = [Vec::new(), flush(), flush().repeat(9), ended_early, damaged];
    let macros =
        "\nopen 0\n+tlm_flush\n#\n+wait 2\nclose\n\nopen 1\n+run 0\n+run 1\nclose\nrun 1\n";
    let codes = "run 0\n\n\nclose\nrun 2\nopen 2\nopen 3\nclose";
    let far = "\n".repeat(300) + "stop\n" + &"\n".repeat(20_000) + "close";
    let mut items = Vec::new();
    for kit in kits {
        for text in [SAMPLE, macros.as_bytes(), codes.as_bytes()] {
            items.extend([typed(REPORT_ROOM, &kit, text), status()]);
            items.extend([run(REPORT_ROOM, &kit, &flush()), now(Kind::Clear, 0)]);
        }
    }
    items.push(typed(ROOM, &flush(), far.as_bytes()));
    items
}

/// Every set of reasons to refuse a typed run, but for a text that is too long.
fn orders_of_run() -> Vec<Item> {
    let mut items = Vec::new();
    for faults in 0..16 {
        let has = |fault: u32| faults >> fault & 1 == 1;
        let room = if has(0) { REPORT_ROOM - 1 } else { REPORT_ROOM };
        let stops = if has(1) { 513 } else { 2 };
        let bad = if has(2) { "+stop\n" } else { "" };
        let kit = if has(3) { LONGEST_LIST + 1 } else { 8 };
        let kit = &flush().repeat(LONGEST_LIST)[..kit];
        items.push(typed(room, kit, &lines("stop\n", stops, bad)));
        items.push(status());
    }
    items
}

/// Kits of every sort before a text that would not run without them, and rooms
/// that both lists just fill.
fn kits() -> Vec<Item> {
    let full = flush().repeat(LONGEST_LIST / flush().len());
    let open = raw(false, Kind::Open, [3, 0]);
    let mut items = vec![
        typed(REPORT_ROOM, &open, b"+tlm_flush\nclose\nrun 3"),
        status(),
    ];
    for room in [
        REPORT_ROOM - 1,
        REPORT_ROOM,
        REPORT_ROOM + 1,
        ROOM,
        u16::MAX,
    ] {
        items.push(typed(room, &full, &lines("tlm_flush\n", 512, "")));
        items.push(status());
    }
    for size in [LONGEST_LIST - 1, LONGEST_LIST] {
        let zeros = vec![0; size];
        items.extend([typed(REPORT_ROOM, &zeros, SAMPLE), status()]);
    }
    items
}

//! Lists on a memory card: raw to stored (20, 1 to 10, 24), stored to raw (34 to 38, 5, 8 to
//! 10, 20, 24), each refusal by name and on both sides of its border, and the way back.

use std::collections::BTreeSet;

use reference::card::{from_card, raw_form, stored_form, to_card};
use reference::codes::{Finding, Placed, Refusal};
use reference::command::{Command, FlagRule, Kind, Row, TABLE};
use reference::programs::{self, Streams};
use reference::wire::{bytes_of, sealed, unsealed};

const FILL: u8 = 0xaa;

fn raw(appended: bool, kind: Kind, arguments: [u32; 2]) -> Vec<u8> {
    sealed(&unsealed(&Command::new(appended, kind, arguments)))
}

fn flushes(count: usize) -> Vec<u8> {
    bytes_of(&[0x015a_0002, 0x015a_0002]).repeat(count)
}

/// The groups of a number, by dividing.
fn groups(number: u64) -> Vec<u8> {
    if number < 128 {
        return vec![number as u8];
    }
    [vec![128 + (number % 128) as u8], groups(number / 128)].concat()
}

fn stored(numbers: &[u64]) -> Vec<u8> {
    numbers.iter().flat_map(|number| groups(*number)).collect()
}

/// A stored list of one command.
fn one(numbers: &[u64]) -> Vec<u8> {
    [stored(&[1, 1]), stored(numbers)].concat()
}

fn stored_flushes(count: u64) -> Vec<u8> {
    let flushes = stored(&[0x015a, 0]).repeat(count as usize);
    [stored(&[1, count]), flushes].concat()
}

/// The same bytes with another empty group behind them.
fn with_empty_group(mut groups: Vec<u8>) -> Vec<u8> {
    *groups.last_mut().expect("a group") |= 128;
    groups.push(0);
    groups
}

fn at(place: u32, code: u8) -> Placed {
    Refusal::plain(code).at(place)
}

fn out_of_range(place: u32, parameter: u8, value: u32, [low, high]: [u32; 2]) -> Placed {
    let finding = Finding {
        parameter,
        value,
        low,
        high,
    };
    Refusal::out_of_range(finding).at(place)
}

/// The code of reading a stored list and the command at which it was found.
fn read(stored: &[u8]) -> (u8, u32) {
    match raw_form(stored) {
        Ok(_) => (0, 0),
        Err(placed) => (placed.refusal.code, placed.place),
    }
}

/// The same for storing a raw list.
fn store(raw: &[u8]) -> (u8, u32) {
    match stored_form(raw) {
        Ok(_) => (0, 0),
        Err(placed) => (placed.refusal.code, placed.place),
    }
}

/// The flag that a row allows.
fn fitting(row: &Row) -> u64 {
    u64::from(row.flag == FlagRule::OnlyAppended)
}

/// One for each argument, which every row allows.
fn ones(row: &Row) -> Vec<u64> {
    vec![1; row.arguments.len()]
}

fn command(row: &Row, flag: u64, arguments: &[u64]) -> Vec<u64> {
    [&[row.opcode.into(), flag], arguments].concat()
}

/// A good list of five commands, number by number.
fn five() -> Vec<u64> {
    let mut numbers = vec![1, 5];
    numbers.extend([0x015a, 0]);
    numbers.extend([0x0153, 1, 0x43ff_c000, 0x8000_0000]);
    numbers.extend([0x0150, 0, 0, 65_535]);
    numbers.extend([0x7f04, 1, 600]);
    numbers.extend([0x7f05, 0]);
    numbers
}

/// To which command of that list the number at this place belongs; 0 for the first two.
fn command_of(place: usize) -> u32 {
    match place {
        0 | 1 => 0,
        2 | 3 => 1,
        4..=7 => 2,
        8..=11 => 3,
        12..=14 => 4,
        _ => 5,
    }
}

#[test]
fn a_stored_list_is_the_number_1_the_number_of_commands_and_each_command() {
    assert_eq!(stored_form(&[]), Ok(vec![1, 0]));
    assert_eq!(stored_form(&flushes(1)), Ok(vec![1, 1, 0xda, 2, 0]));
    let list = [
        raw(true, Kind::TlmFlush, [0; 2]),
        raw(false, Kind::ImgRegion, [512, 5]),
        raw(true, Kind::Wait, [600, 0]),
    ];
    let expected = [
        &[1, 3][..],
        &[0xda, 2, 1],
        &[0x97, 2, 0, 0x80, 4, 5],
        &[0x84, 0xfe, 1, 1, 0xd8, 4],
    ];
    assert_eq!(stored_form(&list.concat()), Ok(expected.concat()));
    assert_eq!(raw_form(&expected.concat()), Ok(list.concat()));
}

#[test]
fn groups_have_seven_bits_the_lowest_first_and_the_high_bit_on_all_but_the_last() {
    for (time, expected) in [
        (0, &[0][..]),
        (1, &[1]),
        (127, &[0x7f]),
        (128, &[0x80, 1]),
        (300, &[0xac, 2]),
        (16_383, &[0xff, 0x7f]),
        (16_384, &[0x80, 0x80, 1]),
        (65_535, &[0xff, 0xff, 3]),
    ] {
        let list = raw(false, Kind::ImgImage, [time, 1]);
        let stored = [&[1, 1, 0xd0, 2, 0], expected, &[1]].concat();
        assert_eq!(stored_form(&list), Ok(stored.clone()), "{time}");
        assert_eq!(raw_form(&stored), Ok(list), "{time}");
    }
}

#[test]
fn the_number_of_commands_is_a_number_as_the_others() {
    for (count, expected) in [
        (127, &[1, 0x7f][..]),
        (128, &[1, 0x80, 1]),
        (512, &[1, 0x80, 4]),
    ] {
        let stored = stored_form(&flushes(count)).expect("good commands");
        assert_eq!(&stored[..expected.len()], expected);
        assert_eq!(stored.len(), expected.len() + 3 * count);
        assert_eq!(raw_form(&stored), Ok(flushes(count)));
    }
}

#[test]
fn goals_are_stored_as_their_patterns() {
    for goal in [0, 1, 0x001f_ffff, 0x0020_0000, 0x43ff_c000, 0x447f_ffff] {
        let list = raw(false, Kind::TrkGoal, [goal, 0x8000_0000]);
        let numbers = one(&[0x0153, 0, goal.into(), 0x8000_0000]);
        assert_eq!(stored_form(&list), Ok(numbers.clone()));
        assert_eq!(raw_form(&numbers), Ok(list));
    }
    assert_eq!(groups(0x8000_0000), [0x80, 0x80, 0x80, 0x80, 8]);
    assert_eq!(groups(0x43ff_c000), [0x80, 0x80, 0xff, 0x9f, 4]);
}

#[test]
fn goals_that_are_not_allowed_are_8_with_their_pattern() {
    for goal in [0x4480_0000, 0x7f80_0000, 0x7f80_0001, 0x7fc0_0000] {
        for goal in [goal, goal | 0x8000_0000, 0x8000_0001, u32::MAX] {
            let told = |parameter| out_of_range(1, parameter, goal, [0, 0x447f_ffff]);
            let first = one(&[0x0153, 0, goal.into(), 0]);
            assert_eq!(raw_form(&first), Err(told(1)));
            let second = one(&[0x0153, 0, 0, goal.into()]);
            assert_eq!(raw_form(&second), Err(told(2)));
            let list = raw(false, Kind::TrkGoal, [0, goal]);
            assert_eq!(stored_form(&list), Err(told(2)));
        }
    }
}

#[test]
fn an_empty_input_is_34() {
    assert_eq!(read(&[]), (34, 0));
}

#[test]
fn a_list_cut_at_any_byte_is_34() {
    let numbers = five();
    assert_eq!(read(&stored(&numbers)), (0, 0));
    for (place, number) in numbers.iter().enumerate() {
        let before = stored(&numbers[..place]);
        for length in 0..groups(*number).len() {
            let cut = [&before[..], &groups(*number)[..length]].concat();
            assert_eq!(read(&cut), (34, command_of(place)), "{place} {length}");
        }
    }
}

#[test]
fn a_number_with_an_empty_group_is_35() {
    let numbers = five();
    for place in 0..numbers.len() {
        let longer = with_empty_group(groups(numbers[place]));
        for bytes in [longer.clone(), with_empty_group(longer)] {
            let [before, behind] = [&numbers[..place], &numbers[place + 1..]].map(stored);
            let list = [before, bytes, behind].concat();
            assert_eq!(read(&list), (35, command_of(place)), "{place}");
        }
    }
    // An empty group is only needless behind another one.
    assert_eq!(read(&[1, 0]), (0, 0));
    assert_eq!(read(&[1, 0x80, 0]), (35, 0));
}

#[test]
fn a_number_of_more_than_32_bits_is_35() {
    let numbers = five();
    for place in 0..numbers.len() {
        for high in [1 << 32, 1 << 34, 7 << 32, 1 << 35, 1 << 49, 1 << 63] {
            let mut wide = numbers.clone();
            wide[place] |= high;
            assert_eq!(read(&stored(&wide)), (35, command_of(place)), "{place}");
        }
    }
    // The fifth group has room for four bits.
    for fifth in 0..128 {
        let code = if (1..16).contains(&fifth) { 5 } else { 35 };
        let list = [1, 1, 0xff, 0xff, 0xff, 0xff, fifth, 0];
        assert_eq!(read(&list), (code, 1), "{fifth}");
    }
    // A bit so far up that no counter has it.
    let far = [&[1, 1][..], &[0xda, 0x82], &[0x80; 40], &[1], &[0]].concat();
    assert_eq!(read(&far), (35, 1));
}

#[test]
fn a_number_without_an_end_is_34_whatever_it_holds() {
    let numbers = five();
    for place in 0..numbers.len() {
        let before = stored(&numbers[..place]);
        for endless in [
            &[0x80; 1][..],
            &[0x80; 2],
            &[0xff; 5],
            &[0x80; 6],
            &[0xff; 300],
        ] {
            let list = [&before[..], endless].concat();
            assert_eq!(read(&list), (34, command_of(place)), "{place}");
        }
    }
    // The same number, needless or too wide, once it has an end.
    assert_eq!(read(&[0x81, 0x80, 0x80]), (34, 0));
    assert_eq!(read(&[0x81, 0x80, 0x80, 0]), (35, 0));
    assert_eq!(read(&[0x81, 0x80, 0x80, 0x80, 0x90]), (34, 0));
    assert_eq!(read(&[0x81, 0x80, 0x80, 0x80, 0x10]), (35, 0));
}

#[test]
fn thirty_five_comes_before_what_a_number_must_be() {
    assert_eq!(read(&[0x82, 0]), (35, 0));
    assert_eq!(read(&[1, 1, 0xdb, 0x82, 0]), (35, 1));
    assert_eq!(read(&[1, 1, 0xda, 2, 0x82, 0]), (35, 1));
    assert_eq!(read(&[1, 1, 0x94, 2, 0, 0x82, 0]), (35, 1));
}

#[test]
fn a_first_number_that_is_not_1_is_36() {
    for first in [
        0,
        2,
        3,
        127,
        128,
        129,
        257,
        65_537,
        0x0100_0001,
        0xffff_ffff,
    ] {
        assert_eq!(read(&stored(&[first, 0])), (36, 0), "{first}");
        // At once, before the next number is looked for.
        assert_eq!(read(&stored(&[first])), (36, 0), "{first}");
        let cut_off = [stored(&[first]), vec![0x80]].concat();
        assert_eq!(read(&cut_off), (36, 0), "{first}");
    }
    assert_eq!(read(&[1]), (34, 0));
}

#[test]
fn a_number_of_commands_that_is_too_large_ends_in_34() {
    for have in [0, 1, 5, 300] {
        let commands = &stored_flushes(have)[stored(&[1, have]).len()..];
        for count in [have + 1, have + 256, have + 65_536, 0xffff_ffff] {
            let list = [&stored(&[1, count])[..], commands].concat();
            assert_eq!(read(&list), (34, have as u32 + 1), "{have} {count}");
        }
    }
    assert_eq!(read(&stored(&[1, 1 << 32])), (35, 0));
}

#[test]
fn a_number_of_commands_that_is_too_small_ends_in_37() {
    for have in [1, 2, 300] {
        let commands = &stored_flushes(have)[stored(&[1, have]).len()..];
        for count in [0, have - 1] {
            let list = [&stored(&[1, count])[..], commands].concat();
            assert_eq!(read(&list), (37, 0), "{have} {count}");
        }
    }
}

#[test]
fn an_opcode_that_is_not_in_the_table_is_5() {
    let known = |number: u64| TABLE.iter().any(|row| u64::from(row.opcode) == number);
    for row in &TABLE {
        let opcode = u64::from(row.opcode);
        let near = [opcode - 1, opcode + 1, opcode << 16, 0, 0xffff_ffff];
        let bits = (0..32).map(|bit| opcode ^ 1 << bit);
        for other in bits.chain(near).filter(|other| !known(*other)) {
            // At once, before a flag is looked for.
            assert_eq!(read(&one(&[other])), (5, 1), "{other:x}");
            let list = [&[0x015a, 0, other, 0], &ones(row)[..]].concat();
            let list = [stored(&[1, 2]), stored(&list)].concat();
            assert_eq!(read(&list), (5, 2), "{other:x}");
        }
    }
    // It is not cut to sixteen bits.
    assert_eq!(read(&one(&[0x1_0114, 0, 1])), (5, 1));
    assert_eq!(read(&one(&[0x0114, 0, 1])), (0, 0));
}

#[test]
fn a_flag_that_is_neither_0_nor_1_is_38() {
    for row in &TABLE {
        for flag in [2, 3, 127, 128, 129, 255, 256, 257, 65_537, 0xffff_ffff] {
            let list = one(&command(row, flag, &ones(row)));
            assert_eq!(read(&list), (38, 1), "{} {flag}", row.name);
            // At once, before the arguments are looked for, and whatever they are.
            assert_eq!(read(&one(&command(row, flag, &[]))), (38, 1));
            let past = one(&command(row, flag, &[0xffff_ffff; 2]));
            assert_eq!(read(&past), (38, 1));
        }
        let list = one(&command(row, fitting(row), &ones(row)));
        assert_eq!(read(&list), (0, 0), "{}", row.name);
    }
}

/// Every argument by its row and place, with its lowest and highest value, by hand.
const ENDS: [(Kind, usize, [u32; 2]); 13] = [
    (Kind::ImgPwr, 0, [0, 1]),
    (Kind::ImgRegion, 0, [0, 1023]),
    (Kind::ImgRegion, 1, [0, 1023]),
    (Kind::ImgTrack, 0, [0, 65_535]),
    (Kind::ImgTrack, 1, [1, 65_535]),
    (Kind::TrkAlg, 0, [0, 2]),
    (Kind::TrkLoop, 0, [0, 1]),
    (Kind::ImgImage, 0, [0, 65_535]),
    (Kind::ImgImage, 1, [1, 65_535]),
    (Kind::FlushAuto, 0, [0, 1]),
    (Kind::Open, 0, [0, 7]),
    (Kind::Run, 0, [0, 7]),
    (Kind::Wait, 0, [1, 600]),
];

#[test]
fn an_argument_past_a_limit_is_8_with_its_value_and_both_ends() {
    for (kind, place, [low, high]) in ENDS {
        let row = kind.row();
        let list = |value: u32| {
            let mut arguments = ones(row);
            arguments[place] = value.into();
            one(&command(row, fitting(row), &arguments))
        };
        for good in [low, low + 1, high - 1, high] {
            assert_eq!(read(&list(good)), (0, 0), "{} {good}", row.name);
        }
        let wide = [high + 1, high + 256, 65_536 + low, 1 << 31 | low, u32::MAX];
        for bad in wide.into_iter().chain(low.checked_sub(1)) {
            let told = out_of_range(1, place as u8 + 1, bad, [low, high]);
            assert_eq!(raw_form(&list(bad)), Err(told), "{} {bad}", row.name);
        }
    }
}

#[test]
fn an_argument_is_not_cut_to_its_width() {
    let told = out_of_range(1, 1, 300, [0, 1]);
    assert_eq!(raw_form(&one(&[0x0114, 0, 300])), Err(told));
    let told = out_of_range(1, 1, 256, [0, 1]);
    assert_eq!(raw_form(&one(&[0x0114, 0, 256])), Err(told));
    let told = out_of_range(1, 2, 65_537, [1, 65_535]);
    assert_eq!(raw_form(&one(&[0x0150, 0, 5, 65_537])), Err(told));
}

#[test]
fn eight_is_told_at_once_of_the_first_bad_argument() {
    let told = out_of_range(1, 1, 1024, [0, 1023]);
    for behind in [&[][..], &[0x80], &[0x80, 0], &[5], &[0x80, 0x80, 4]] {
        let list = [one(&[0x0117, 0, 1024]), behind.to_vec()].concat();
        assert_eq!(raw_form(&list), Err(told));
    }
    let told = out_of_range(1, 2, 1024, [0, 1023]);
    assert_eq!(raw_form(&one(&[0x0117, 0, 5, 1024])), Err(told));
    // And before 9 or 10.
    assert_eq!(read(&one(&[0x7f01, 1, 8])), (8, 1));
    assert_eq!(read(&one(&[0x7f04, 0, 601])), (8, 1));
}

#[test]
fn nine_and_ten_come_behind_the_last_number_of_a_command() {
    for (opcode, flag, code) in [(0x7f01, 1, 9), (0x7f04, 0, 10)] {
        assert_eq!(read(&one(&[opcode, flag])), (34, 1));
        assert_eq!(read(&one(&[opcode, flag, 1])), (code, 1));
        let longer = [one(&[opcode, flag]), vec![0x81, 0]].concat();
        assert_eq!(read(&longer), (35, 1));
        // Before anything about the next command.
        let next = [stored(&[1, 2, opcode, flag, 1]), vec![0x80]].concat();
        assert_eq!(read(&next), (code, 1));
    }
}

#[test]
fn commands_without_an_argument_have_9_behind_their_flag() {
    for opcode in [0x7f02, 0x7f05, 0x7f06] {
        assert_eq!(read(&one(&[opcode, 0])), (0, 0));
        assert_eq!(read(&one(&[opcode, 1])), (9, 1));
        assert_eq!(read(&one(&[opcode, 2])), (38, 1));
        assert_eq!(read(&stored(&[1, 2, opcode, 1, 0x0113])), (9, 1));
        assert_eq!(read(&stored(&[1, 1, opcode, 1, 0])), (9, 1));
    }
    for flag in [0, 1] {
        assert_eq!(read(&one(&[0x015a, flag])), (0, 0));
    }
}

#[test]
fn bytes_behind_the_last_command_are_37() {
    for good in [stored(&[1, 0]), stored_flushes(1), stored(&five())] {
        for behind in [&[0][..], &[1], &[0x80], &[0xff, 0xff], &[0xda, 2, 0], &good] {
            assert_eq!(read(&[&good, behind].concat()), (37, 0));
        }
    }
}

#[test]
fn a_stored_list_whose_raw_list_would_pass_4096_bytes_is_20() {
    assert_eq!(raw_form(&stored_flushes(512)), Ok(flushes(512)));
    for count in [513, 514, 1000, 21_844] {
        assert_eq!(read(&stored_flushes(count)), (20, 0), "{count}");
    }
    // Commands of twelve bytes and of sixteen: 4,092 bytes in all, 4,096, 4,100 and more.
    for (powers, goals, code) in [
        (341, 0, 0),
        (340, 1, 0),
        (339, 2, 20),
        (342, 0, 20),
        (0, 256, 0),
        (0, 257, 20),
    ] {
        let list = [
            stored(&[1, powers + goals]),
            stored(&[0x0114, 0, 1]).repeat(powers as usize),
            stored(&[0x0153, 0, 0, 0]).repeat(goals as usize),
        ];
        assert_eq!(read(&list.concat()), (code, 0), "{powers} {goals}");
    }
}

#[test]
fn thirty_seven_comes_before_20_and_20_before_24() {
    let long = stored_flushes(513);
    assert_eq!(read(&[&long[..], &[0]].concat()), (37, 0));
    assert_eq!(read(&long[..long.len() - 1]), (34, 513));
    let answer = |stored: &[u8], room: usize| from_card(stored, &mut vec![FILL; room]);
    assert_eq!(answer(&long, 0), Err(at(0, 20)));
    assert_eq!(answer(&[&long[..], &[0]].concat(), 0), Err(at(0, 37)));
    assert_eq!(answer(&stored_flushes(512), 4095), Err(at(0, 24)));
    assert_eq!(answer(&stored_flushes(512), 4096), Ok(4096));
    assert_eq!(answer(&one(&[0x0113]), 0), Err(at(1, 5)));
}

/// A command for each of the codes 1 to 10.
fn bad(code: u8) -> Vec<u8> {
    match code {
        1 => vec![1, 0x5a, 0],
        2 => bytes_of(&[0x015a_0021, 0x015a_0021]),
        3 => bytes_of(&[0x0117_0020, 0, 0x0117_0020]),
        4 => bytes_of(&[0x015a_0002, 0]),
        5 => bytes_of(&[0x0159_0002, 0x0159_0002]),
        6 => bytes_of(&[0x015a_0003, 1, 0x015a_0002]),
        7 => bytes_of(&[0x0114_0003, 1, 0x0114_0002]),
        8 => raw(false, Kind::Wait, [601, 0]),
        9 => raw(true, Kind::Open, [1, 0]),
        _ => raw(false, Kind::Wait, [1, 0]),
    }
}

#[test]
fn a_raw_list_gives_the_code_and_the_number_of_its_first_bad_command() {
    for code in 1..=10 {
        for before in [0, 1, 5, 300] {
            let start = [flushes(before), bad(code)].concat();
            let place = before as u32 + 1;
            assert_eq!(store(&start), (code, place));
            // A command is too short at the end of a list alone.
            for behind in [flushes(1), bad(4), bad(1)].iter().filter(|_| code > 1) {
                let list = [&start[..], behind].concat();
                assert_eq!(store(&list), (code, place));
            }
        }
    }
    let told = out_of_range(2, 1, 601, [1, 600]);
    assert_eq!(stored_form(&[flushes(1), bad(8)].concat()), Err(told));
}

#[test]
fn a_raw_list_above_4096_bytes_is_20_whatever_is_in_it() {
    assert_eq!(store(&flushes(512)), (0, 0));
    for longer in [
        [flushes(512), vec![0]].concat(),
        flushes(513),
        vec![0; 4097],
    ] {
        assert_eq!(store(&longer), (20, 0));
    }
    assert_eq!(store(&[bad(4), flushes(512)].concat()), (20, 0));
    assert_eq!(store(&[bad(4), flushes(511)].concat()), (4, 1));
    assert_eq!(store(&[0; 4096]), (2, 1));
}

/// The answer of a writer, and the room that it leaves.
fn written(
    writer: fn(&[u8], &mut [u8]) -> Result<usize, Placed>,
    list: &[u8],
    room: usize,
) -> (Result<usize, Placed>, Vec<u8>) {
    let mut bytes = vec![FILL; room];
    (writer(list, &mut bytes), bytes)
}

#[test]
fn a_room_that_is_too_small_is_24_and_stays_as_it_was() {
    let (raw, stored) = (flushes(3), stored_flushes(3));
    for (writer, list, made) in [
        (to_card as fn(&[u8], &mut [u8]) -> _, &raw, &stored),
        (from_card, &stored, &raw),
    ] {
        for room in [0, 1, made.len() - 1] {
            let expected = (Err(at(0, 24)), vec![FILL; room]);
            assert_eq!(written(writer, list, room), expected);
        }
        for more in [0, 1, 300] {
            let (answer, room) = written(writer, list, made.len() + more);
            assert_eq!(answer, Ok(made.len()));
            assert_eq!(room, [&made[..], &vec![FILL; more]].concat());
        }
    }
    assert_eq!(written(to_card, &[], 2), (Ok(2), vec![1, 0]));
    assert_eq!(written(to_card, &[], 1), (Err(at(0, 24)), vec![FILL]));
    assert_eq!(written(from_card, &[1, 0], 0), (Ok(0), vec![]));
}

#[test]
fn a_refused_list_leaves_the_room_as_it_was() {
    for code in 1..=10 {
        let list = [flushes(2), bad(code)].concat();
        assert_eq!(written(to_card, &list, 99).1, [FILL; 99]);
        // Every other refusal comes before the room.
        assert_eq!(
            written(to_card, &list, 0).0,
            Err(stored_form(&list).unwrap_err())
        );
    }
    let start = stored_flushes(2);
    for behind in [&[0][..], &[0x80]] {
        let list = [&start[..], behind].concat();
        assert_eq!(
            written(from_card, &list, 99),
            (Err(at(0, 37)), vec![FILL; 99])
        );
    }
    let cut = &start[..start.len() - 1];
    assert_eq!(
        written(from_card, cut, 99),
        (Err(at(2, 34)), vec![FILL; 99])
    );
}

#[test]
fn every_command_goes_there_and_back_and_no_two_share_a_form() {
    let (mut lists, mut forms) = (BTreeSet::new(), BTreeSet::new());
    for row in &TABLE {
        for appended in [false, true] {
            for first in [0, 1, 2, 7, 127, 128, 600, 1023, 65_535] {
                let list = raw(appended, row.kind, [first, 1]);
                let Ok(stored) = stored_form(&list) else {
                    continue;
                };
                assert_eq!(raw_form(&stored), Ok(list.clone()));
                lists.insert(list);
                forms.insert(stored);
            }
        }
    }
    assert_eq!(forms.len(), lists.len());
    assert!(lists.len() > 80, "{}", lists.len());
}

#[test]
fn what_is_read_from_a_card_is_stored_the_same_again() {
    let mut taken = 0;
    for opcode in TABLE.map(|row| row.opcode) {
        let start = stored(&[1, 1, opcode.into()]);
        for any in (0_u32..3 << 16).step_by(19) {
            let [_, flag, first, second] = any.to_be_bytes();
            for length in 1..=3 {
                let list = [&start[..], &[flag, first, second][..length]].concat();
                if let Ok(raw) = raw_form(&list) {
                    assert_eq!(stored_form(&raw), Ok(list));
                    taken += 1;
                }
            }
        }
    }
    assert!(taken > 1000, "{taken}");
}

fn errors(streams: Streams) -> String {
    assert!(streams.output.is_empty());
    String::from_utf8_lossy(&streams.errors).into_owned()
}

#[test]
fn the_programs_write_bytes_to_standard_output() {
    let both = [
        (programs::to_card(&flushes(2)), stored_flushes(2)),
        (programs::from_card(&stored_flushes(2)), flushes(2)),
        (programs::to_card(&[]), vec![1, 0]),
        (programs::from_card(&[1, 0]), vec![]),
        (programs::from_card(&stored_flushes(512)), flushes(512)),
    ];
    for (streams, output) in both {
        assert_eq!(streams.output, output);
        assert!(streams.errors.is_empty());
    }
}

#[test]
fn the_programs_write_a_refusal_to_standard_error() {
    let line = |list: &[u8]| errors(programs::to_card(list));
    assert_eq!(line(&[0; 4097]), "refused 20\n");
    assert_eq!(line(&[flushes(1), bad(4)].concat()), "refused 4 number 2\n");
    assert_eq!(
        line(&bad(8)),
        "refused 8 number 1 par 1 val 601 from 1 to 600\n"
    );
    let line = |list: &[u8]| errors(programs::from_card(list));
    assert_eq!(line(&[]), "refused 34\n");
    assert_eq!(line(&[1, 0x80, 0]), "refused 35\n");
    assert_eq!(line(&[2]), "refused 36\n");
    assert_eq!(line(&[1, 0, 0]), "refused 37\n");
    assert_eq!(line(&one(&[0x015a, 2])), "refused 38 number 1\n");
    assert_eq!(line(&stored(&[1, 2, 0x015a, 0])), "refused 34 number 2\n");
    assert_eq!(line(&stored_flushes(21_844)), "refused 20\n");
    assert_eq!(
        line(&one(&[0x0153, 1, 0, 0xffff_ffff])),
        "refused 8 number 1 par 2 val 4294967295 from 0 to 1149239295\n"
    );
}

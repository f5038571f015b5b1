//! Fixed stored lists: every number of a list ended early, longer than it needs to be, with
//! too many bits, and with every value about its limits; two faults at once; bytes left
//! over; and lists that would be too long.

use super::cards::{command, endless, groups, list, longer, pieces, replaced, stored};
use super::damage::GOALS;
use super::fixed_wire::good;
use super::texts::fitting_flag;
use crate::command::{Kind, Row, TABLE};

/// Numbers about the limits of arguments and of groups, some of which would be allowed if
/// they were cut.
const VALUES: [u32; 36] = [
    0,
    1,
    2,
    3,
    7,
    8,
    127,
    128,
    129,
    255,
    256,
    257,
    263,
    300,
    599,
    600,
    601,
    856,
    1023,
    1024,
    1025,
    16_383,
    16_384,
    32_768,
    65_535,
    65_536,
    65_537,
    66_136,
    0x001f_ffff,
    0x0020_0000,
    0x0100_0001,
    0x0fff_ffff,
    0x1000_0000,
    0x8000_0000,
    0x8000_0001,
    u32::MAX,
];

/// Numbers that are neither 0 nor 1.
const FLAGS: [u64; 12] = [
    2,
    3,
    127,
    128,
    129,
    255,
    256,
    257,
    65_537,
    0x8000_0000,
    0x8000_0001,
    0xffff_ffff,
];

/// What a number above 32 bits has besides its low ones: just one bit too many, all that
/// five groups have, and bits that are lost where 35, 63 or 64 are counted.
const HIGH: [u64; 9] = [
    1 << 32,
    1 << 33,
    1 << 34,
    7 << 32,
    1 << 35,
    1 << 36,
    1 << 42,
    1 << 56,
    1 << 63,
];

/// A number of 32 bits that is allowed nowhere.
const LARGE: u64 = 0xffff_fffe;

pub(super) const FLUSH: u64 = 0x015a;

/// All of them, sort by sort.
pub fn lists() -> Vec<Vec<u8>> {
    let mut lists = ended_early();
    lists.extend(needless_groups());
    lists.extend(too_many_bits());
    lists.extend(never_ended());
    lists.extend(forms());
    lists.extend(counts());
    lists.extend(opcodes());
    lists.extend(flags());
    lists.extend(values());
    lists.extend(wrong_flags());
    lists.extend(at_once());
    lists.extend(left_over());
    lists.extend(about_4096());
    lists.extend(far_down());
    lists
}

pub(super) fn flush() -> Vec<u64> {
    vec![FLUSH, 0]
}

pub(super) fn flushes(count: usize) -> Vec<u64> {
    list(&vec![flush(); count])
}

/// The flag that a command of this row may have, where it may not have both.
fn fitting(row: &Row) -> u64 {
    fitting_flag(row.kind, false).into()
}

/// Every command with each flag that it may have, once with small numbers and once with
/// its largest.
pub(super) fn every_command() -> Vec<u64> {
    let mut all = Vec::new();
    for row in &TABLE {
        for appended in [false, true] {
            let flag = fitting_flag(row.kind, appended).into();
            let highest = row.arguments.iter().map(|argument| argument.ends()[1]);
            let highest: Vec<u32> = highest.chain([0, 0]).collect();
            all.push(command(flag, row.kind, good(row)));
            all.push(command(flag, row.kind, [highest[0], highest[1]]));
        }
    }
    list(&all)
}

/// A few commands, whose numbers have one to five groups.
fn few_commands() -> Vec<u64> {
    list(&[
        flush(),
        command(1, Kind::TrkGoal, [0x43ff_c000, 0x8000_0000]),
        command(0, Kind::ImgImage, [0, 65_535]),
        command(1, Kind::Wait, [600, 0]),
        command(0, Kind::Stop, [0; 2]),
    ])
}

/// A command with a flush before it and one behind it.
fn between(one: &[u64]) -> Vec<u64> {
    list(&[flush(), one.to_vec(), flush()])
}

/// Cut at every byte, from nothing at all on.
fn ended_early() -> Vec<Vec<u8>> {
    let mut lists = Vec::new();
    for all in [stored(&every_command()), stored(&few_commands())] {
        lists.extend((0..=all.len()).map(|length| all[..length].to_vec()));
    }
    lists
}

/// Each number of a list with other bytes instead.
fn each_replaced(numbers: &[u64], by: impl Fn(u64) -> Vec<Vec<u8>>) -> Vec<Vec<u8>> {
    let mut lists = Vec::new();
    for (place, number) in numbers.iter().enumerate() {
        let others = by(*number);
        lists.extend(others.iter().map(|other| replaced(numbers, place, other)));
    }
    lists
}

/// Each number with groups that hold nothing, up to the fifth and past it.
fn needless_groups() -> Vec<Vec<u8>> {
    let mut lists = each_replaced(&every_command(), |number| vec![longer(number, 1)]);
    lists.extend(each_replaced(&few_commands(), |number| {
        let counts = (1..=11).chain([60, 300]);
        counts.map(|more| longer(number, more)).collect()
    }));
    lists
}

/// Each number with more than 32 bits.
fn too_many_bits() -> Vec<Vec<u8>> {
    let mut lists = each_replaced(&every_command(), |number| vec![groups(1 << 32 | number)]);
    lists.extend(each_replaced(&few_commands(), |number| {
        let mut all: Vec<Vec<u8>> = HIGH.iter().map(|high| groups(high | number)).collect();
        all.extend(past_64_bits(number));
        all
    }));
    lists
}

/// A one in the group that starts with bit 63, 64 or more, where a count of 64 bits loses
/// it.
fn past_64_bits(number: u64) -> Vec<Vec<u8>> {
    let mut all = Vec::new();
    for length in [10, 11, 20, 37, 38] {
        let short = groups(number).len();
        let mut bytes = endless(number, length - short);
        bytes[length - 1] = 2;
        all.push(bytes);
    }
    all
}

/// Each number without an end, be it needless or wide already: 34 hides 35.
fn never_ended() -> Vec<Vec<u8>> {
    let numbers = few_commands();
    let mut lists = Vec::new();
    for (place, number) in numbers.iter().enumerate() {
        let before = pieces(&numbers[..place]).concat();
        for more in (0..=10).chain([300]) {
            lists.push([&before[..], &endless(*number, more)].concat());
        }
        lists.push([&before[..], &[0xff; 12]].concat());
    }
    lists
}

/// The first number, with a list behind it, with nothing, and with a number cut off; and
/// stored badly itself.
fn forms() -> Vec<Vec<u8>> {
    let mut lists = Vec::new();
    let firsts = VALUES.map(u64::from).into_iter();
    for first in firsts.chain([0x1_0000_0001, 0x8_0000_0001]) {
        for behind in [
            &stored(&few_commands())[1..],
            &[],
            &[0],
            &[0x80],
            &[0x80, 0],
        ] {
            lists.push([&groups(first)[..], behind].concat());
        }
        lists.extend([endless(first, 0), longer(first, 1)]);
    }
    lists
}

/// The number of commands: one too many, one too few, none, and far too many, of which
/// some are right when they are cut.
fn counts() -> Vec<Vec<u8>> {
    let mut lists = Vec::new();
    for have in [0_u64, 1, 5, 127, 128, 255, 256] {
        let numbers = flushes(have as usize);
        let near = [have, have + 1, have.saturating_sub(1), 0, 1, 2 * have];
        let far = [8, 16, 24, 31].map(|bit| have + (1 << bit));
        let farther = [0x7fff_ffff, 0x8000_0000, 0xffff_ffff, 0x1_0000_0000];
        for count in near.into_iter().chain(far).chain(farther) {
            lists.push(replaced(&numbers, 1, &groups(count)));
        }
    }
    lists
}

/// Opcodes next to each known one, with one bit off, of more than 16 bits, and turned round.
fn opcodes() -> Vec<Vec<u8>> {
    let mut lists = Vec::new();
    for row in &TABLE {
        let opcode = u32::from(row.opcode);
        let mut others: Vec<u32> = (0..32).map(|bit| opcode ^ 1 << bit).collect();
        others.extend([opcode - 1, opcode + 1, opcode << 16, opcode << 16 | opcode]);
        others.extend([row.opcode.swap_bytes().into(), opcode % 256, opcode >> 8]);
        for other in others {
            let mut one = command(fitting(row), row.kind, good(row));
            one[0] = other.into();
            lists.push(stored(&between(&one)));
        }
    }
    for any in VALUES {
        lists.push(stored(&between(&[any.into(), 0])));
    }
    lists
}

/// Flags that are none, on every command.
fn flags() -> Vec<Vec<u8>> {
    let mut lists = Vec::new();
    for row in &TABLE {
        for flag in FLAGS {
            lists.push(stored(&between(&command(flag, row.kind, good(row)))));
        }
    }
    lists
}

/// Every argument with every value, the other one allowed; and both past their limits.
fn values() -> Vec<Vec<u8>> {
    let mut lists = Vec::new();
    for row in &TABLE {
        for place in 0..row.arguments.len() {
            for value in VALUES.into_iter().chain(GOALS) {
                let mut set = good(row);
                set[place] = value;
                lists.push(stored(&between(&command(fitting(row), row.kind, set))));
            }
        }
    }
    for row in TABLE.iter().filter(|row| row.arguments.len() == 2) {
        for first in [1024, 65_536, 0x4480_0000, u32::MAX] {
            for second in [0, 1024, 65_536, 0x7f80_0001, u32::MAX] {
                lists.push(stored(&between(&command(1, row.kind, [first, second]))));
            }
        }
    }
    lists
}

/// Every command with both flags, whole and cut at every byte of its own: where it may not
/// have that flag, this is found behind its last number.
fn wrong_flags() -> Vec<Vec<u8>> {
    let mut lists = Vec::new();
    for row in &TABLE {
        for flag in [0, 1] {
            let numbers = between(&command(flag, row.kind, good(row)));
            let all = stored(&numbers);
            lists.extend((4..=all.len()).map(|length| all[..length].to_vec()));
            let alone = list(&[command(flag, row.kind, good(row))]);
            lists.push(stored(&alone));
            lists.push([&stored(&alone)[..], &[0]].concat());
            lists.push(replaced(&alone, 1, &groups(2)));
        }
    }
    lists
}

/// Each number of each command bad in every way that it can be, with each other one too:
/// the first is told, and before what is missing behind it.
fn at_once() -> Vec<Vec<u8>> {
    let mut lists = Vec::new();
    for row in &TABLE {
        let mut one = command(fitting(row), row.kind, good(row));
        one[1] ^= 1;
        let numbers = between(&one);
        let own = 4..4 + one.len();
        for place in own.clone() {
            for bad in bad_numbers(numbers[place]) {
                let list = replaced(&numbers, place, &bad);
                let before: usize = pieces(&numbers[..place]).iter().map(Vec::len).sum();
                lists.push(list[..before + bad.len()].to_vec());
                lists.push(list);
                for next in own.clone().skip(place - 3) {
                    let mut all = pieces(&numbers);
                    all[place] = bad.clone();
                    lists.extend([longer(numbers[next], 1), groups(LARGE)].map(|other| {
                        all[next] = other;
                        all.concat()
                    }));
                }
            }
        }
    }
    lists
}

/// Too large for anything, and stored badly, whether it is too large or not.
fn bad_numbers(number: u64) -> Vec<Vec<u8>> {
    vec![
        groups(LARGE),
        longer(LARGE, 1),
        longer(number, 1),
        groups(1 << 32 | number),
        groups(1 << 32 | LARGE),
    ]
}

/// Bytes behind a list: any, such as end no number, and whole lists.
fn left_over() -> Vec<Vec<u8>> {
    let behind: [&[u8]; 8] = [
        &[0],
        &[1],
        &[0x7f],
        &[0x80],
        &[0xff],
        &[0x80, 0],
        &[1, 0],
        &[0xda, 2, 0],
    ];
    let mut lists = Vec::new();
    for numbers in [flushes(0), flushes(1), few_commands(), flushes(512)] {
        let all = stored(&numbers);
        lists.extend(behind.map(|more| [&all[..], more].concat()));
        lists.push([&all[..], &all].concat());
    }
    lists
}

/// Raw lists of 4,092 to 4,104 bytes and far more, with the same lists cut, with a bad
/// command at their end, and with bytes left over.
fn about_4096() -> Vec<Vec<u8>> {
    let power = command(0, Kind::ImgPwr, [1, 0]);
    let goal = command(0, Kind::TrkGoal, [u32::from(u16::MAX), 0]);
    // So many of each.
    let counts = [
        (511, 0, 0),
        (512, 0, 0),
        (513, 0, 0),
        (514, 0, 0),
        (0, 341, 0),
        (0, 342, 0),
        (0, 340, 1),
        (0, 339, 2),
        (0, 0, 256),
        (1, 0, 256),
        (0, 0, 257),
        (2, 340, 0),
        (1000, 0, 0),
    ];
    let mut lists = Vec::new();
    for (flushes, powers, goals) in counts {
        let mut commands = vec![flush(); flushes];
        commands.extend(vec![power.clone(); powers]);
        commands.extend(vec![goal.clone(); goals]);
        let numbers = list(&commands);
        let all = stored(&numbers);
        lists.push(all[..all.len() - 1].to_vec());
        lists.push([&all[..], &[0]].concat());
        lists.push(replaced(&numbers, numbers.len() - 1, &groups(2)));
        lists.push(replaced(&numbers, 1, &groups(numbers[1] + 1)));
        lists.push(replaced(&numbers, 1, &groups(numbers[1] - 1)));
        lists.push(all);
    }
    lists
}

/// As many flushes as a script can hold, and a fault in one far down.
fn far_down() -> Vec<Vec<u8>> {
    let most = 21_840;
    let numbers = flushes(most);
    let mut lists = vec![stored(&numbers)];
    for command in [255, 256, 512, 513, most] {
        lists.push(replaced(&numbers, 2 * command, &groups(FLUSH + 1)));
        lists.push(replaced(&numbers, 2 * command + 1, &groups(2)));
    }
    lists.push(vec![0x80; 60_000]);
    lists.push(longer(1, 60_000));
    lists.push([&[1, 1], &longer(FLUSH, 60_000)[..], &[0]].concat());
    lists
}

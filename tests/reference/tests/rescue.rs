//! The rescue of damaged lists: what is kept and what is skipped, every reading on both sides,
//! bad inputs by name, both rooms (20, 24), and the program.

use reference::codes::Refusal;
use reference::command::{Command, Kind, TABLE};
use reference::programs::{rescue_list, Streams};
use reference::rescue::{rescue, rescued, Stretch, Written};
use reference::wire::{bytes_of, read_command, sealed, unsealed};

const FILL: u8 = 0xaa;

fn raw(appended: bool, kind: Kind, arguments: [u32; 2]) -> Vec<u8> {
    sealed(&unsealed(&Command::new(appended, kind, arguments)))
}

fn flushes(count: usize) -> Vec<u8> {
    bytes_of(&[0x015a_0002, 0x015a_0002]).repeat(count)
}

/// A command for each of the codes 1 to 10.
fn bad(code: u8) -> Vec<u8> {
    match code {
        1 => vec![0x01, 0x5a, 0x00, 0x02, 0x01],
        2 => bytes_of(&[0x015a_0001, 0x015a_0001]),
        3 => bytes_of(&[0x015a_0020, 0x015a_0020]),
        4 => bytes_of(&[0x015a_0002, 0x015a_0003]),
        5 => bytes_of(&[0x015b_0002, 0x015b_0002]),
        6 => bytes_of(&[0x015a_0003, 0, 0x015a_0003]),
        7 => bytes_of(&[0x0114_0003, 0x0100_0001, 0x0014_0002]),
        8 => raw(false, Kind::Run, [8, 0]),
        9 => raw(true, Kind::Stop, [0; 2]),
        _ => raw(false, Kind::Wait, [1, 0]),
    }
}

/// Five commands, no two of which have the same bytes at an end.
fn five() -> [Vec<u8>; 5] {
    [
        flushes(1),
        raw(false, Kind::TrkGoal, [0x43ff_c000, 0x8000_0000]),
        raw(true, Kind::ImgImage, [5, 2]),
        raw(true, Kind::Wait, [600, 0]),
        raw(false, Kind::Stop, [0; 2]),
    ]
}

/// Which of the five the byte at this place belongs to, and where that command begins.
fn command_at(place: usize) -> (usize, usize) {
    let mut start = 0;
    for (number, command) in five().iter().enumerate() {
        if place < start + command.len() {
            return (number, start);
        }
        start += command.len();
    }
    (5, start)
}

/// The five without the one of this number.
fn without(number: usize) -> Vec<u8> {
    let mut commands = five().to_vec();
    commands.remove(number);
    commands.concat()
}

fn stretches(all: &[(u16, u16)]) -> Vec<Stretch> {
    let stretch = |(start, length): &(u16, u16)| Stretch {
        start: *start,
        length: *length,
    };
    all.iter().map(stretch).collect()
}

/// Demands that just these bytes are kept and just these stretches are skipped.
#[track_caller]
fn demand(list: &[u8], kept: &[u8], skipped: &[(u16, u16)]) {
    let rescued = rescued(list).expect("it is not too long");
    assert_eq!(rescued.stretches, stretches(skipped), "{list:02x?}");
    assert_eq!(rescued.kept, kept, "{list:02x?}");
}

#[test]
fn a_list_that_passes_1_to_8_throughout_loses_nothing() {
    demand(&[], &[], &[]);
    demand(&five().concat(), &five().concat(), &[]);
    demand(&flushes(512), &flushes(512), &[]);
    for row in &TABLE {
        for appended in [false, true] {
            let list = [raw(appended, row.kind, [1, 1]), flushes(1)].concat();
            demand(&list, &list, &[]);
        }
    }
}

#[test]
fn fewer_than_8_bytes_are_all_skipped() {
    for length in 1..8 {
        demand(&flushes(1)[..length], &[], &[(0, length as u16)]);
        demand(&vec![0; length], &[], &[(0, length as u16)]);
        let behind = [flushes(2), flushes(1)[..length].to_vec()].concat();
        demand(&behind, &flushes(2), &[(16, length as u16)]);
    }
}

#[test]
fn zeros_and_ones_are_one_stretch() {
    for length in [8, 9, 255, 256, 4095, 4096] {
        for byte in [0, 0xff] {
            demand(&vec![byte; length], &[], &[(0, length as u16)]);
        }
    }
}

#[test]
fn a_command_with_9_or_10_is_kept() {
    for (code, kind) in [
        (9, Kind::Open),
        (9, Kind::Close),
        (9, Kind::Stop),
        (9, Kind::Clear),
        (10, Kind::Wait),
    ] {
        let command = raw(code == 9, kind, [1, 0]);
        assert_eq!(read_command(&command).unwrap_err().code, code);
        demand(&command, &command, &[]);
        let list = [&[0][..], &command, &[0], &command].concat();
        demand(
            &list,
            &command.repeat(2),
            &[(0, 1), (1 + command.len() as u16, 1)],
        );
    }
}

#[test]
fn a_command_with_1_to_8_is_skipped_byte_by_byte() {
    for code in 1..=8 {
        let command = bad(code);
        assert_eq!(read_command(&command).unwrap_err().code, code);
        let length = command.len() as u16;
        let list = [flushes(1), command.clone()].concat();
        demand(&list, &flushes(1), &[(8, length)]);
        // The next command begins behind it, also where 1, 2 or 3 would end a list.
        if code != 1 {
            let list = [flushes(1), command, flushes(2)].concat();
            demand(&list, &flushes(3), &[(8, length)]);
        }
    }
}

#[test]
fn both_sides_of_8_and_of_7() {
    for (value, kept) in [(600, true), (601, false), (0, false), (1, true)] {
        let command = raw(true, Kind::Wait, [value, 0]);
        let skipped = [(0, 12)];
        match kept {
            true => demand(&command, &command, &[]),
            false => demand(&command, &[], &skipped),
        }
    }
    // Code 8 stands before 9 and 10.
    demand(&raw(true, Kind::Open, [8, 0]), &[], &[(0, 12)]);
    demand(&raw(false, Kind::Wait, [0, 0]), &[], &[(0, 12)]);
    for goal in [0x447f_ffff, 0x8000_0000] {
        let command = raw(false, Kind::TrkGoal, [goal, goal]);
        demand(&command, &command, &[]);
    }
    for goal in [0x4480_0000, 0x7fc0_0000, 0x8000_0001] {
        demand(&raw(false, Kind::TrkGoal, [0, goal]), &[], &[(0, 16)]);
    }
    let padded = bytes_of(&[0x7f04_8003, 0x0001_0001, 0x7f05_8002]);
    demand(&padded, &[], &[(0, 12)]);
}

#[test]
fn l_is_held_against_all_bytes_that_are_left() {
    // Whole behind others, and a byte short.
    let goal = five()[1].clone();
    let list = [flushes(3), goal.clone()].concat();
    demand(&list, &list, &[]);
    demand(&list[..39], &flushes(3), &[(24, 15)]);
    // It takes in what stands behind it, as far as it is right with that.
    let head = bytes_of(&[0x0153_0004, 0x015a_0002, 0x015a_0002]);
    let sum = bytes_of(&[0x0153_0004]);
    let whole = [&head[..], &sum].concat();
    demand(
        &[&whole[..], &flushes(1)].concat(),
        &[&whole[..], &flushes(1)].concat(),
        &[],
    );
    // And where it claims more than there is, only its first word is lost.
    demand(&head, &flushes(1), &[(0, 4)]);
    for length in [5, 8, 31, 32, 33, 0x7fff] {
        let first = bytes_of(&[0x015a_0000 | length]);
        demand(&[&first[..], &flushes(2)].concat(), &flushes(2), &[(0, 4)]);
    }
}

#[test]
fn a_broken_byte_costs_the_command_that_has_it() {
    let list = five().concat();
    for place in 0..list.len() {
        let (number, start) = command_at(place);
        let length = five()[number].len() as u16;
        for other in [list[place] ^ 1, list[place] ^ 0x80, !list[place]] {
            let mut broken = list.clone();
            broken[place] = other;
            demand(&broken, &without(number), &[(start as u16, length)]);
        }
    }
}

#[test]
fn a_byte_put_in_costs_the_command_around_it_or_none() {
    let list = five().concat();
    for place in 0..=list.len() {
        let (before, behind) = list.split_at(place);
        let (number, start) = command_at(place);
        let longer = [before, &[0x99], behind].concat();
        if place == start {
            demand(&longer, &list, &[(start as u16, 1)]);
        } else {
            let length = five()[number].len() as u16 + 1;
            demand(&longer, &without(number), &[(start as u16, length)]);
        }
    }
}

#[test]
fn a_byte_taken_out_costs_the_command_that_had_it() {
    let list = five().concat();
    for place in 0..list.len() {
        let (number, start) = command_at(place);
        let mut shorter = list.clone();
        shorter.remove(place);
        let length = five()[number].len() as u16 - 1;
        demand(&shorter, &without(number), &[(start as u16, length)]);
    }
}

#[test]
fn two_lists_with_noise_between_them() {
    let list = five().concat();
    let end = list.len() as u16;
    for length in 0..40 {
        for byte in [0, 0x99, 0xff] {
            let both = [&list[..], &vec![byte; length.into()], &list].concat();
            let skipped = [(end, length)];
            demand(&both, &list.repeat(2), &skipped[..usize::from(length > 0)]);
        }
    }
    // Stretches lie in every place at once.
    let all = [&[7][..], &list, &[7; 2], &list, &[7; 3]].concat();
    let skipped = [(0, 1), (end + 1, 2), (2 * end + 3, 3)];
    demand(&all, &list.repeat(2), &skipped);
}

#[test]
fn a_command_within_another_comes_to_light_where_that_is_damaged() {
    let goal = raw(false, Kind::TrkGoal, [0x015a_0002, 0x015a_0002]);
    demand(&goal, &goal, &[]);
    demand(
        &[&goal[..], &flushes(1)].concat(),
        &[&goal[..], &flushes(1)].concat(),
        &[],
    );
    for place in (0..4).chain(12..16) {
        let mut broken = goal.clone();
        broken[place] ^= 0x10;
        demand(&broken, &flushes(1), &[(0, 4), (12, 4)]);
        // What stands in front of it may be the end of the one before.
        let behind = [flushes(1), broken, flushes(1)].concat();
        demand(&behind, &flushes(3), &[(8, 4), (20, 4)]);
    }
    for place in 4..12 {
        let mut broken = goal.clone();
        broken[place] ^= 0x10;
        demand(&broken, &[], &[(0, 16)]);
    }
    // Not at a word.
    let goal = raw(false, Kind::TrkGoal, [0x0101_5a00, 0x0201_5a00]);
    demand(&goal, &goal, &[]);
    demand(&goal[1..], &flushes(1), &[(0, 4), (12, 3)]);
}

#[test]
fn what_is_kept_is_passed_and_not_looked_at_again() {
    let three_words = bytes_of(&[0x015a_0002; 3]);
    demand(&three_words, &flushes(1), &[(8, 4)]);
    let five_words = bytes_of(&[0x015a_0002; 5]);
    demand(&five_words, &flushes(2), &[(16, 4)]);
    // The first word is damage, so the others pair up otherwise.
    let mut words = vec![0x015a_0003];
    words.extend([0x015a_0002; 4]);
    demand(&bytes_of(&words), &flushes(2), &[(0, 4)]);
}

#[test]
fn a_broken_length_no_longer_costs_what_stands_behind_it() {
    for length in (0..=40).chain([0x7fff]).filter(|length| *length != 3) {
        let broken = bytes_of(&[0x0114_0000 | length, 0x0100_0000, 0x0014_0003]);
        let list = [flushes(2), broken, flushes(40)].concat();
        demand(&list, &flushes(42), &[(16, 12)]);
    }
}

#[test]
fn as_many_stretches_as_a_list_can_have() {
    let mut list = [&[0x99][..], &flushes(1)].concat().repeat(455);
    list.push(0x99);
    assert_eq!(list.len(), 4096);
    let skipped: Vec<(u16, u16)> = (0..456).map(|place| (9 * place, 1)).collect();
    demand(&list, &flushes(455), &skipped);
}

#[test]
fn a_list_above_4096_bytes_is_refused() {
    let too_long = Err(Refusal::plain(20));
    assert!(rescued(&flushes(513)[..4096]).is_ok());
    assert!(rescued(&[0; 4096]).is_ok());
    for list in [
        &flushes(513)[..4097],
        &flushes(513),
        &[0; 4097],
        &[0; 60_000],
    ] {
        assert_eq!(rescued(list), too_long);
    }
    // Whatever rooms there are.
    for [room, beside] in [[0, 0], [0, 99], [99, 0], [9000, 9000]] {
        let (answer, left) = written(&[0; 4097], room, beside);
        assert_eq!(answer, Err(Refusal::plain(20)));
        assert_eq!(left, [vec![FILL; room], vec![FILL; beside]]);
    }
}

/// The answer, and what both rooms hold then.
fn written(list: &[u8], room: usize, beside: usize) -> (Result<Written, Refusal>, [Vec<u8>; 2]) {
    let mut rooms = [room, beside].map(|length| vec![FILL; length]);
    let [room, beside] = &mut rooms;
    let answer = rescue(list, room, beside);
    (answer, rooms)
}

#[test]
fn both_are_written_to_the_front_of_their_rooms_and_nothing_behind() {
    let list = [&flushes(1)[..], &[7; 300], &flushes(2), &[7]].concat();
    let told = [0, 8, 0x01, 0x2c, 0x01, 0x44, 0, 1];
    let count = Written {
        kept: 24,
        stretches: 2,
    };
    for [more, more_beside] in [[0, 0], [0, 1], [1, 0], [300, 9]] {
        let (answer, [room, beside]) = written(&list, 24 + more, 8 + more_beside);
        assert_eq!(answer, Ok(count));
        assert_eq!(room, [&flushes(3)[..], &vec![FILL; more]].concat());
        assert_eq!(beside, [&told[..], &vec![FILL; more_beside]].concat());
    }
}

#[test]
fn either_room_too_small_leaves_both() {
    let list = [&flushes(1)[..], &[7; 3], &flushes(2), &[7]].concat();
    for [room, beside] in [
        [23, 8],
        [24, 7],
        [23, 7],
        [0, 8],
        [24, 0],
        [0, 0],
        [23, 99],
        [99, 4],
    ] {
        let (answer, rooms) = written(&list, room, beside);
        assert_eq!(answer, Err(Refusal::plain(24)), "{room} {beside}");
        assert_eq!(rooms, [vec![FILL; room], vec![FILL; beside]]);
    }
}

#[test]
fn a_room_for_nothing_may_be_none() {
    assert_eq!(written(&[], 0, 0).0, Ok(Written::default()));
    let (answer, rooms) = written(&flushes(1), 8, 0);
    assert_eq!(answer.map(|count| count.kept), Ok(8));
    assert_eq!(rooms, [flushes(1), vec![]]);
    let (answer, rooms) = written(&[7; 4096], 0, 4);
    assert_eq!(answer.map(|count| count.stretches), Ok(1));
    assert_eq!(rooms, [vec![], vec![0, 0, 0x10, 0]]);
}

fn streams(output: &[u8], errors: &str) -> Streams {
    Streams {
        output: output.to_vec(),
        errors: errors.into(),
    }
}

#[test]
fn the_program_writes_what_is_kept_and_tells_what_is_skipped() {
    assert_eq!(rescue_list(&[]), streams(&[], ""));
    assert_eq!(rescue_list(&five().concat()), streams(&five().concat(), ""));
    let list = [&[7; 5][..], &flushes(1), &bad(4), &bad(9), &bad(10), &[0]].concat();
    let kept = [flushes(1), bad(9), bad(10)].concat();
    let told = "skipped 0 5\nskipped 13 8\nskipped 41 1\n";
    assert_eq!(rescue_list(&list), streams(&kept, told));
    assert_eq!(rescue_list(&[0; 4096]), streams(&[], "skipped 0 4096\n"));
    assert_eq!(rescue_list(&flushes(512)), streams(&flushes(512), ""));
}

#[test]
fn the_program_tells_a_refusal_on_standard_error() {
    for list in [vec![0; 4097], flushes(513)] {
        assert_eq!(rescue_list(&list), streams(&[], "refused 20\n"));
    }
}

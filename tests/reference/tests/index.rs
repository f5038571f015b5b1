//! The index of a list: built, extended, refused (20, 54, 24), and looked up through; every
//! border on both sides.

use reference::codes::{Refusal, BAD_OFFSETS, LIST_TOO_LONG, TOO_LITTLE_ROOM};
use reference::index::{found, index, MOST_OFFSETS};
use reference::run::{commands_of, shown, KIT, PUPIL};
use reference::wire::{bytes_of, sealed};

const FILL: u16 = 0xaaaa;
const LONGEST: usize = 4096;

fn flush() -> Vec<u8> {
    bytes_of(&[0x015a_0002, 0x015a_0002])
}

/// Three words.
fn region() -> Vec<u8> {
    sealed(&[0x0117_0003, 0x0200_0100])
}

fn flushes(length: usize) -> Vec<u8> {
    let mut list = flush().repeat(length / 8 + 1);
    list.truncate(length);
    list
}

/// A list of 35 bytes: its commands begin at 0, 8, 20 and 28.
fn mixed() -> Vec<u8> {
    [&flush()[..], &region(), &flush(), &region()[..7]].concat()
}

/// So many offsets that begin at 0 and rise by 8.
fn apart(count: u16) -> Vec<u16> {
    (0..count).map(|place| 8 * place).collect()
}

fn refused<T>(code: u8) -> Result<T, Refusal> {
    Err(Refusal::plain(code))
}

/// The offsets, or the refusal; what lies behind them must be as it was.
fn answer(list: &[u8], earlier: &[u16], room: usize) -> Result<Vec<u16>, Refusal> {
    let mut places = vec![FILL; room];
    let count = index(list, earlier, &mut places);
    let behind = &places[count.unwrap_or(0)..];
    assert!(behind.iter().all(|place| *place == FILL), "{places:?}");
    count.map(|count| places[..count].to_vec())
}

fn anew(list: &[u8]) -> Vec<u16> {
    answer(list, &[], 600).expect("a list that is not too long")
}

#[test]
fn an_index_says_where_each_command_begins() {
    assert_eq!(anew(&[]), []);
    assert_eq!(anew(&flush()), [0]);
    assert_eq!(anew(&mixed()), [0, 8, 20, 28]);
    assert_eq!(anew(&flushes(LONGEST)), apart(512));
    // Whatever code from 4 on a command has, the next one begins 4L bytes on.
    let unknown = bytes_of(&[0x0000_0004, 1, 2, 3]);
    assert_eq!(anew(&[unknown, flush()].concat()), [0, 16]);
}

#[test]
fn codes_1_to_3_take_all_that_is_left() {
    for length in 1..8 {
        assert_eq!(anew(&[&flush()[..], &vec![0; length]].concat()), [0, 8]);
    }
    for words in [0, 1, 33, 0x7fff, 0x8000, 0x8001, 0x8021] {
        let bad = bytes_of(&[0x015a_0000 | words, 0, 0, 0]);
        assert_eq!(anew(&[flush(), bad, flush()].concat()), [0, 8], "{words}");
    }
    let cut_off = bytes_of(&[0x015a_0020, 0]);
    assert_eq!(anew(&[flush(), cut_off, flushes(112)].concat()), [0, 8]);
    let just_whole = bytes_of(&[0x015a_0020, 0]);
    let list = [flush(), just_whole, flushes(128)].concat();
    assert_eq!(anew(&list), [0, 8, 136]);
}

#[test]
fn lists_above_4096_bytes_are_20() {
    for length in [4095, LONGEST] {
        assert_eq!(anew(&flushes(length)).len(), 512);
    }
    for length in [4097, 4104, 65_535] {
        let list = flushes(length);
        assert_eq!(answer(&list, &[], 600), refused(LIST_TOO_LONG));
        assert!(found(&list, &[0], 1).is_empty());
    }
    assert_eq!(found(&flushes(LONGEST), &[0], 1), flush());
}

#[test]
fn more_than_512_offsets_are_54() {
    let full = flushes(LONGEST);
    assert_eq!(answer(&full, &apart(511), 600), Ok(apart(512)));
    assert_eq!(answer(&full, &apart(512), 600), Ok(apart(512)));
    let dense: Vec<u16> = (0..600).collect();
    for count in [513, 514, 600] {
        let answer = answer(&full, &dense[..count], 600);
        assert_eq!(answer, refused(BAD_OFFSETS), "{count}");
    }
}

#[test]
fn offsets_that_do_not_start_at_0_are_54() {
    let list = flushes(32);
    assert_eq!(answer(&list, &[0], 600), Ok(apart(4)));
    for offsets in [&[1][..], &[8], &[8, 16], &[1, 8, 16], &[31]] {
        assert_eq!(answer(&list, offsets, 600), refused(BAD_OFFSETS));
    }
}

#[test]
fn offsets_that_do_not_rise_are_54() {
    let list = flushes(32);
    for offsets in [&[0, 0][..], &[0, 8, 8], &[0, 8, 7], &[0, 16, 8], &[0, 8, 0]] {
        assert_eq!(answer(&list, offsets, 600), refused(BAD_OFFSETS));
    }
    // A rise of one is a rise.
    assert_eq!(answer(&list, &[0, 1], 600), Ok(vec![0, 1]));
}

#[test]
fn offsets_outside_the_list_are_54() {
    for length in [1, 8, 9, 255, 4096] {
        let list = flushes(length.into());
        for last in [length, length + 1, 65_535] {
            assert_eq!(answer(&list, &[0, last], 600), refused(BAD_OFFSETS));
        }
        if length > 1 {
            let inside = answer(&list, &[0, length - 1], 600);
            assert_eq!(inside, Ok(vec![0, length - 1]));
        }
    }
    assert_eq!(answer(&[7], &[0], 600), Ok(vec![0]));
    for offsets in [&[0][..], &[1], &[0, 8]] {
        assert_eq!(answer(&[], offsets, 600), refused(BAD_OFFSETS));
    }
    assert_eq!(answer(&[], &[], 0), Ok(vec![]));
}

#[test]
fn a_room_with_fewer_places_than_the_index_needs_is_24() {
    for list in [flush(), mixed(), flushes(4088), flushes(LONGEST)] {
        let offsets = anew(&list);
        let count = offsets.len();
        for earlier in [0, 1, count / 2, count] {
            let earlier = &offsets[..earlier];
            for room in [count, count + 1, 65_535] {
                assert_eq!(answer(&list, earlier, room), Ok(offsets.clone()));
            }
            for room in [0, count - 1] {
                assert_eq!(answer(&list, earlier, room), refused(TOO_LITTLE_ROOM));
            }
        }
    }
}

#[test]
fn an_index_that_would_need_513_is_24() {
    let dense: Vec<u16> = (0..512).collect();
    for (kept, behind) in [(512, 1), (511, 2), (510, 3)] {
        let list = [vec![0; kept - 1], flush().repeat(behind)].concat();
        let offsets = answer(&list, &dense[..kept], MOST_OFFSETS);
        assert_eq!(offsets.map(|all| all.len()), Ok(512));
        let longer = [list, flush()].concat();
        for room in [0, 512, 513, 600] {
            let answer = answer(&longer, &dense[..kept], room);
            assert_eq!(answer, refused(TOO_LITTLE_ROOM));
        }
    }
}

#[test]
fn twenty_comes_before_54_and_54_before_24() {
    let (longest, longer) = (flushes(LONGEST), flushes(LONGEST + 1));
    let dense: Vec<u16> = (0..513).collect();
    for bad in [&[1, 8][..], &[0, 8, 8], &[0, 4097], &dense] {
        for room in [0, 600] {
            assert_eq!(answer(&longer, bad, room), refused(LIST_TOO_LONG));
            assert_eq!(answer(&longest, bad, room), refused(BAD_OFFSETS));
        }
    }
    assert_eq!(answer(&longer, &[0], 0), refused(LIST_TOO_LONG));
    assert_eq!(answer(&longest, &[0], 511), refused(TOO_LITTLE_ROOM));
}

#[test]
fn extending_keeps_all_offsets_but_the_last_and_reads_that_one_anew() {
    let list = mixed();
    // Of another list: nobody can tell, so they stay.
    assert_eq!(answer(&list, &[0, 3, 20], 600), Ok(vec![0, 3, 20, 28]));
    assert_eq!(
        answer(&list, &[0, 3, 4, 8], 600),
        Ok(vec![0, 3, 4, 8, 20, 28])
    );
    // The last one leads into the middle of a command, whose bytes have code 2.
    assert_eq!(answer(&list, &[0, 2], 600), Ok(vec![0, 2]));
    // A command that was cut off is whole now, and others stand behind it.
    let cut_off = [&flush()[..], &region()[..9]].concat();
    let grown = [flush(), region(), flush()].concat();
    assert_eq!(anew(&cut_off), [0, 8]);
    assert_eq!(answer(&grown, &[0, 8], 600), Ok(vec![0, 8, 20]));
}

#[test]
fn an_index_of_any_part_leads_to_that_of_the_whole() {
    let bad = bytes_of(&[0x015a_0001, 0, 0]);
    let lists = [
        mixed(),
        [mixed(), flushes(40)].concat(),
        [region(), bad, flush()].concat(),
        [region(), flush(), bytes_of(&[0x015a_0020, 0])].concat(),
    ];
    for list in lists {
        for first in 0..=list.len() {
            let start = anew(&list[..first]);
            assert_eq!(answer(&list, &start, 600), Ok(anew(&list)), "{first}");
            for second in first..=list.len() {
                let part = answer(&list[..second], &start, 600);
                assert_eq!(part, Ok(anew(&list[..second])), "{first} {second}");
            }
        }
    }
}

#[test]
fn a_command_looked_up_shows_the_same_bytes_as_the_walk() {
    for list in [vec![], flush(), mixed(), [region(), vec![0; 9]].concat()] {
        let offsets = anew(&list);
        assert_eq!(offsets.len(), commands_of(&list).len());
        for number in 0..offsets.len() as u32 + 3 {
            let looked_up = found(&list, &offsets, number);
            assert_eq!(looked_up, shown(&list, &flush(), KIT, number));
            assert_eq!(looked_up, shown(&flush(), &list, PUPIL, number));
        }
    }
}

#[test]
fn numbers_without_an_offset_find_nothing() {
    let (list, offsets) = (mixed(), [0, 8, 20, 28]);
    assert_eq!(found(&list, &offsets, 1), flush());
    assert_eq!(found(&list, &offsets, 4), &region()[..7]);
    for number in [0, 5, 256, 257, 65_537, 0x8000_0001, u32::MAX] {
        assert!(found(&list, &offsets, number).is_empty(), "{number}");
    }
    assert!(found(&list, &[], 1).is_empty());
}

#[test]
fn only_the_offset_that_is_asked_for_counts() {
    let list = mixed();
    // They fall, lie outside, are equal; none of it is 54 here.
    let offsets = [65_535, 35, 34, 28, 8, 8, 0];
    let parts = [
        &[][..],
        &[],
        &list[34..],
        &list[28..],
        &region(),
        &region(),
        &flush(),
    ];
    for (number, part) in (1..).zip(parts) {
        assert_eq!(found(&list, &offsets, number), part, "{number}");
    }
    let many: Vec<u16> = (0..600).map(|place| place % 35).collect();
    assert_eq!(found(&list, &many, 513), &list[22..]);
    assert_eq!(found(&list, &many, 596), &list[..8]);
    assert!(found(&list, &many, 601).is_empty());
}

#[test]
fn what_begins_in_the_middle_of_a_command_is_read_from_there() {
    let list = mixed();
    for at in 0..list.len() {
        let whole = match at {
            0 | 20 => 8,
            8 => 12,
            // From within the first flush and the region words can be read that fit.
            _ => commands_of(&list[at..])[0].len(),
        };
        assert_eq!(found(&list, &[at as u16], 1), &list[at..at + whole]);
    }
    assert_eq!(found(&list, &[4], 1), &list[4..12]);
    assert_eq!(found(&list, &[2], 1), &list[2..]);
}

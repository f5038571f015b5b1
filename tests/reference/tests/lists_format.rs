//! Small scripts for the replay program for lists, with the transcript each must give,
//! written by hand.

use reference::comparison::items::{from_card, index, look_up, rescue, to_card};
use reference::lists_replay::transcript;
use reference::wire::bytes_of;

fn answer(items: &[Vec<u8>]) -> String {
    transcript(&items.concat())
}

/// Two flushes and three bytes more.
fn list() -> Vec<u8> {
    let mut list = bytes_of(&[0x015a_0002; 4]);
    list.extend([1, 2, 3]);
    list
}

#[test]
fn a_list_goes_to_a_card() {
    let flush = &list()[..8];
    let items = [
        to_card(5, flush),
        to_card(9, flush),
        to_card(4, flush),
        to_card(2, &[]),
        to_card(99, &list()),
        to_card(99, &[0; 4097]),
        to_card(99, &bytes_of(&[0x0117_0003, 0x0005_0400, 0x0112_0403])),
    ];
    let expected = "stored 0 0 0 0 0 0 0101da0200\nrest same\n\
                    stored 0 0 0 0 0 0 0101da0200\nrest same\n\
                    stored 24 0 0 0 0 0\nrest same\n\
                    stored 0 0 0 0 0 0 0100\nrest same\n\
                    stored 1 3 0 0 0 0\nrest same\n\
                    stored 20 0 0 0 0 0\nrest same\n\
                    stored 8 1 2 1024 0 1023\nrest same\n";
    assert_eq!(answer(&items), expected);
}

#[test]
fn a_list_comes_off_a_card() {
    let flush = [1, 1, 0xda, 2, 0];
    let items = [
        from_card(8, &flush),
        from_card(9, &flush),
        from_card(7, &flush),
        from_card(0, &[1, 0]),
        from_card(99, &flush[..4]),
        from_card(99, &[1, 0, 0]),
        from_card(99, &[1, 2, 0xda, 2, 0, 0x94, 2, 0, 0xac, 2]),
    ];
    let expected = "raw 0 0 0 0 0 0 015a0002015a0002\nrest same\n\
                    raw 0 0 0 0 0 0 015a0002015a0002\nrest same\n\
                    raw 24 0 0 0 0 0\nrest same\n\
                    raw 0 0 0 0 0 0\nrest same\n\
                    raw 34 1 0 0 0 0\nrest same\n\
                    raw 37 0 0 0 0 0\nrest same\n\
                    raw 8 2 1 300 0 1\nrest same\n";
    assert_eq!(answer(&items), expected);
}

#[test]
fn rooms_of_bytes_above_13000_count_as_13000() {
    for room in [4096, 13_000, 13_001, 65_535] {
        let items = [to_card(room, &list()[..8]), from_card(room, &[1, 0])];
        let expected = "stored 0 0 0 0 0 0 0101da0200\nrest same\nraw 0 0 0 0 0 0\nrest same\n";
        assert_eq!(answer(&items), expected);
    }
}

/// A byte, two flushes and three bytes more.
fn damaged() -> Vec<u8> {
    [vec![0], list()].concat()
}

#[test]
fn a_list_rescued() {
    let items = [
        rescue(16, 8, &damaged()),
        rescue(17, 9, &damaged()),
        rescue(8, 0, &list()[..8]),
        rescue(0, 4, &[0xff; 300]),
        rescue(0, 0, &[]),
    ];
    let two = "rescued 0 16 2 015a0002015a0002015a0002015a0002\nskipped 0 1\nskipped 17 3\n";
    let same = "rest same\nrest same\n";
    let expected = [
        two,
        same,
        two,
        same,
        "rescued 0 8 0 015a0002015a0002\n",
        same,
        "rescued 0 0 1\nskipped 0 300\n",
        same,
        "rescued 0 0 0\n",
        same,
    ];
    assert_eq!(answer(&items), expected.concat());
}

#[test]
fn a_rescue_refused() {
    let rooms = [[15, 8], [16, 7], [15, 7], [0, 13_000], [13_000, 0], [0, 0]];
    for [room, beside] in rooms {
        let expected = "rescued 24 0 0\nrest same\nrest same\n";
        assert_eq!(answer(&[rescue(room, beside, &damaged())]), expected);
    }
    for [room, beside] in [[4096, 1824], [0, 0], [0, 4], [8, 0]] {
        let expected = "rescued 20 0 0\nrest same\nrest same\n";
        assert_eq!(answer(&[rescue(room, beside, &[0; 4097])]), expected);
    }
}

#[test]
fn both_rooms_of_a_rescue_above_13000_count_as_13000() {
    for room in [4096, 13_000, 13_001, 65_535] {
        let items = [
            rescue(room, 8, &list()[..9]),
            rescue(8, room, &list()[..9]),
            rescue(room, room, &list()[..9]),
        ];
        let one = "rescued 0 8 1 015a0002015a0002\nskipped 8 1\nrest same\nrest same\n";
        assert_eq!(answer(&items), one.repeat(3));
    }
}

#[test]
fn an_index_built() {
    let items = [
        index(3, &[], &list()),
        index(600, &[], &list()),
        index(2, &[], &list()),
        index(0, &[], &[]),
        index(600, &[], &[0; 4097]),
    ];
    let expected = "indexed 0 3 0 8 16\nrest same\n\
                    indexed 0 3 0 8 16\nrest same\n\
                    indexed 24 0\nrest same\n\
                    indexed 0 0\nrest same\n\
                    indexed 20 0\nrest same\n";
    assert_eq!(answer(&items), expected);
}

#[test]
fn an_index_extended() {
    let items = [
        index(3, &[0, 8], &list()),
        index(9, &[0, 3, 16], &list()),
        index(9, &[0, 19], &list()),
        index(9, &[0, 18], &list()),
        index(9, &[0], &[]),
    ];
    let expected = "indexed 0 3 0 8 16\nrest same\n\
                    indexed 0 3 0 3 16\nrest same\n\
                    indexed 54 0\nrest same\n\
                    indexed 0 2 0 18\nrest same\n\
                    indexed 54 0\nrest same\n";
    assert_eq!(answer(&items), expected);
}

#[test]
fn by_its_bytes() {
    let mut script = vec![3, 0, 2, 0, 1, 0, 0, 0, 9];
    script.extend(&list()[..9]);
    script.extend([4, 0, 2, 0, 0, 0, 8, 0, 9]);
    script.extend(&list()[..9]);
    script.extend([0, 0, 0, 2]);
    script.extend([0, 0, 5, 0, 8, 1, 0x5a, 0, 2, 1, 0x5a, 0, 2]);
    script.extend([1, 0, 8, 0, 5, 1, 1, 0xda, 2, 0]);
    script.extend([2, 0, 8, 0, 4, 0, 9, 7, 1, 0x5a, 0, 2, 1, 0x5a, 0, 2]);
    let expected = "indexed 0 2 0 8\nrest same\nfound 01\n\
                    stored 0 0 0 0 0 0 0101da0200\nrest same\n\
                    raw 0 0 0 0 0 0 015a0002015a0002\nrest same\n\
                    rescued 0 8 1 015a0002015a0002\nskipped 0 1\nrest same\nrest same\n";
    assert_eq!(transcript(&script), expected);
}

#[test]
fn commands_looked_up() {
    let offsets = [0, 8, 16, 19];
    let numbers = [0, 1, 3, 4, 5, 65_537, u32::MAX];
    let items = numbers.map(|number| look_up(&offsets, &list(), number));
    let expected = "found\nfound 015a0002015a0002\nfound 010203\nfound\nfound\nfound\nfound\n";
    assert_eq!(answer(&items), expected);
}

#[test]
fn rooms_above_600_count_as_600() {
    let offsets: Vec<u16> = (0..512).map(|place| 8 * place).collect();
    let full = bytes_of(&[0x015a_0002; 1024]);
    let told: String = offsets.iter().map(|offset| format!(" {offset}")).collect();
    for room in [512, 600, 601, 65_535] {
        let expected = format!("indexed 0 512{told}\nrest same\n");
        assert_eq!(answer(&[index(room, &[], &full)]), expected);
    }
    assert_eq!(
        answer(&[index(511, &[], &full)]),
        "indexed 24 0\nrest same\n"
    );
}

#[test]
fn six_hundred_offsets_are_read_and_one_more_is_bad() {
    let empty = look_up(&[], &[], 1);
    for (count, lines) in [
        (600, "indexed 54 0\nrest same\nfound\n"),
        (601, "bad script\n"),
    ] {
        let item = index(0, &vec![0; count], &[1]);
        assert_eq!(answer(&[item, empty.clone()]), lines);
    }
    let rising: Vec<u16> = (0..601).map(|place| place / 600).collect();
    let item = |count: usize| look_up(&rising[..count], &[9, 8, 7], 600);
    assert_eq!(answer(&[item(600), empty.clone()]), "found 090807\nfound\n");
    assert_eq!(answer(&[item(601), empty]), "bad script\n");
}

#[test]
fn scripts_that_end_badly() {
    assert_eq!(answer(&[]), "");
    let good = look_up(&[], &[], 1);
    for first in 5..=255 {
        let items = [good.clone(), vec![first], good.clone()];
        assert_eq!(answer(&items), "found\nbad script\n", "{first}");
    }
    for item in [
        to_card(9, &list()),
        from_card(9, &[1, 0]),
        rescue(16, 9, &damaged()),
        index(9, &[0, 8], &list()),
        look_up(&[0], &list(), 1),
    ] {
        for length in 1..item.len() {
            let items = [good.clone(), item[..length].to_vec()];
            assert_eq!(answer(&items), "found\nbad script\n", "{length}");
        }
    }
}

#[test]
fn scripts_above_65536_bytes_are_too_long() {
    // Each has 9 bytes, and 65,536 are 7,281 of them and 7.
    let good = look_up(&[], &[], 1);
    let mut items = vec![good; 7281];
    items.push(index(0, &[], &[]));
    assert_eq!(answer(&items).lines().count(), 7283);
    items.push(vec![3]);
    assert_eq!(answer(&items), "too long\n");
}

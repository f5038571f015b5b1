//! The gas valve: frames read with every fault alone and with others, frames written, and what
//! frames do to a valve of every sort. Every number expected here is written by hand.

use reference::codes::{code_and_finding, Refusal};
use reference::comparison::valve_frames::{bytes, mended, summed, with, Words};
use reference::valve::{Order, Valve, ValveFrame};

const FILL: u8 = 0xaa;

/// Words 0 to 5 with no flag, and with both.
const ARM: [u16; 6] = [0x000e, 0xffff, 0x0001, 0x0000, 0x0000, 0x000e];
const FIRE: [u16; 6] = [0x000e, 0x0000, 0x0000, 0xffff, 0x1810, 0x181d];
const ARM_WITH_FLAGS: [u16; 6] = [0xc00e, 0xffff, 0x0001, 0x0000, 0x0000, 0xc00e];
const FIRE_WITH_FLAGS: [u16; 6] = [0xc00e, 0x0000, 0x0000, 0xffff, 0x1810, 0xd81d];

const VALVES: [Valve; 3] = [Valve::Safe, Valve::Armed, Valve::Fired];

fn words(first: [u16; 6]) -> Words {
    let mut words = [0; 32];
    words[..6].copy_from_slice(&first);
    words
}

fn frame(first: [u16; 6]) -> Vec<u8> {
    bytes(&words(first))
}

fn read(words: &Words) -> Result<ValveFrame, Refusal> {
    ValveFrame::read(&bytes(words))
}

fn code_of(words: &Words) -> u8 {
    code_and_finding(&read(words)).0
}

fn is_read(words: &Words, flags: u8, order: Order) {
    assert_eq!(read(words), Ok(ValveFrame { flags, order }), "{words:x?}");
}

/// Carries out the frame, and tells the code and the status afterwards.
fn carry_out(mut valve: Valve, frame: &[u8]) -> (u8, u16) {
    let answer = valve.carry_out_bytes(frame);
    (code_and_finding(&answer).0, valve.status())
}

#[test]
fn both_patterns_are_read() {
    is_read(&words(ARM), 0, Order::Arm);
    is_read(&words(FIRE), 0, Order::Fire(0x1810));
    is_read(&words(ARM_WITH_FLAGS), 3, Order::Arm);
    is_read(&words(FIRE_WITH_FLAGS), 3, Order::Fire(0x1810));
}

#[test]
fn the_words_are_big_endian() {
    let mut arm = vec![0, 0x0e, 0xff, 0xff, 0, 1, 0, 0, 0, 0, 0, 0x0e];
    arm.resize(64, 0);
    let arm_read = ValveFrame {
        flags: 0,
        order: Order::Arm,
    };
    assert_eq!(ValveFrame::read(&arm), Ok(arm_read));
    assert_eq!(arm_read.bytes(), arm);
    let mut fire = vec![0x40, 0x0e, 0, 0, 0, 0, 0xff, 0xff, 0x12, 0x34, 0x52, 0x41];
    fire.resize(64, 0);
    let fire_read = ValveFrame {
        flags: 1,
        order: Order::Fire(0x1234),
    };
    assert_eq!(ValveFrame::read(&fire), Ok(fire_read));
    assert_eq!(fire_read.bytes(), fire);
    // With the bytes of each word exchanged the sum of a frame that arms is no longer right;
    // where it is, the identifier is not.
    let swapped = words(ARM).map(u16::swap_bytes);
    assert_eq!(code_of(&swapped), 41);
    assert_eq!(code_of(&mended(swapped)), 42);
}

#[test]
fn both_flags_may_have_any_value_and_are_kept() {
    for (flags, first) in [(0, 0x000e), (1, 0x400e), (2, 0x800e), (3, 0xc00e)] {
        is_read(&summed([first, 0xffff, 1, 0, 0]), flags, Order::Arm);
        for code in [0, 1, 0x1810, 0xffff] {
            let words = summed([first, 0, 0, 0xffff, code]);
            is_read(&words, flags, Order::Fire(code));
        }
    }
}

#[test]
fn any_firing_code_is_read() {
    for code in 0..=0xffff {
        let words = summed([0x800e, 0, 0, 0xffff, code]);
        is_read(&words, 2, Order::Fire(code));
    }
}

#[test]
fn anything_but_64_bytes_is_40() {
    for first in [ARM, FIRE] {
        let again = frame(first).repeat(5);
        for length in 0..=300 {
            let expected = if length == 64 { 0 } else { 40 };
            let answer = ValveFrame::read(&again[..length]);
            assert_eq!(code_and_finding(&answer).0, expected, "{length}");
        }
    }
    assert_eq!(ValveFrame::read(&[]), Err(Refusal::plain(40)));
    assert_eq!(ValveFrame::read(&[0; 65_600]), Err(Refusal::plain(40)));
}

#[test]
fn any_other_sum_is_41() {
    for first in [ARM, FIRE, ARM_WITH_FLAGS, FIRE_WITH_FLAGS] {
        for sum in 0..=0xffff {
            let expected = if sum == first[5] { 0 } else { 41 };
            assert_eq!(code_of(&with(&words(first), 5, sum)), expected, "{sum:x}");
        }
    }
}

#[test]
fn sums_are_modulo_65536() {
    // 0x000e + 0xffff + 0xfff3 is 2 * 65536, and so on.
    for (first, code, sum) in [
        (0x000e, 0xfff3, 0x0000),
        (0x000e, 0xfff2, 0xffff),
        (0x000e, 0xfff4, 0x0001),
        (0x000e, 0xffff, 0x000c),
        (0x000e, 0x0000, 0x000d),
        (0xc00e, 0xffff, 0xc00c),
        (0xc00e, 0x3ff3, 0x0000),
        (0xc00e, 0x3ff2, 0xffff),
        (0x800e, 0x7fff, 0x000c),
    ] {
        let right = words([first, 0, 0, 0xffff, code, sum]);
        assert_eq!(code_of(&right), 0, "{sum:x}");
        for other in [sum.wrapping_add(1), sum.wrapping_sub(1), sum ^ 0x8000] {
            assert_eq!(code_of(&with(&right, 5, other)), 41, "{other:x}");
        }
    }
}

#[test]
fn the_sum_is_of_words_0_to_4_alone() {
    for place in 0..5 {
        assert_eq!(code_of(&with(&words(FIRE), place, 0x2222)), 41, "{place}");
    }
    for place in 6..32 {
        let words = with(&words(FIRE), place, 0x2222);
        assert_eq!(code_of(&words), 43, "{place}");
        assert_eq!(code_of(&with(&words, 5, 0x181d + 0x2222)), 41, "{place}");
    }
}

#[test]
fn any_other_identifier_is_42() {
    for first in 0..=0xffff {
        let words = summed([first, 0xffff, 1, 0, 0]);
        let expected = match first {
            0x000e | 0x400e | 0x800e | 0xc00e => 0,
            _ => 42,
        };
        assert_eq!(code_of(&words), expected, "{first:x}");
    }
}

#[test]
fn each_bit_of_words_6_to_31_is_43() {
    for first in [ARM, FIRE_WITH_FLAGS] {
        for place in 6..32 {
            for bit in 0..16 {
                assert_eq!(code_of(&with(&words(first), place, 1 << bit)), 43);
            }
            assert_eq!(code_of(&with(&words(first), place, 0xffff)), 43);
        }
        // Two that would cancel each other in a sum.
        let both = with(&with(&words(first), 6, 1), 31, 0xffff);
        assert_eq!(code_of(&both), 43);
    }
}

#[test]
fn each_other_word_of_a_pattern_is_44() {
    let places = [(ARM, 1), (ARM, 2), (ARM, 3), (ARM, 4)];
    for (first, place) in [&places[..], &[(FIRE, 1), (FIRE, 2), (FIRE, 3)]].concat() {
        for other in 0..=0xffff {
            let words = mended(with(&words(first), place, other));
            let expected = if other == first[place] { 0 } else { 44 };
            assert_eq!(code_of(&words), expected, "{place} {other:x}");
        }
    }
}

#[test]
fn mixtures_of_both_patterns_are_44() {
    for pattern in [
        [0, 0, 0, 0],
        [0, 0, 0, 0x1810],
        [0xffff, 1, 0xffff, 0x1810],
        [0xffff, 1, 0xffff, 0],
        [0xffff, 1, 0, 0x1810],
        [0xffff, 0, 0, 0],
        [0xffff, 0, 0xffff, 0x1810],
        [0, 1, 0, 0],
        [0, 1, 0xffff, 0x1810],
        [1, 0xffff, 0, 0],
        [0xffff, 0x0100, 0, 0],
        [0, 0, 0x1810, 0xffff],
        [0xffff; 4],
    ] {
        let [a, b, c, d] = pattern;
        assert_eq!(code_of(&summed([0x000e, a, b, c, d])), 44, "{pattern:x?}");
        assert_eq!(code_of(&summed([0xc00e, a, b, c, d])), 44, "{pattern:x?}");
    }
}

/// The words with those faults that have this code or one of these, but for 40.
fn faulty(first: [u16; 6], faults: &[u8]) -> Words {
    let mut words = words(first);
    if faults.contains(&42) {
        words[0] ^= 0x0200;
    }
    if faults.contains(&43) {
        words[19] = 7;
    }
    if faults.contains(&44) {
        words[2] ^= 0x1000;
    }
    let mut words = mended(words);
    if faults.contains(&41) {
        words[5] ^= 0x0400;
    }
    words
}

/// Every set of the codes 40 to 44, each with its lowest first.
fn sets() -> Vec<Vec<u8>> {
    let set = |bits: u32| (0..5).filter(move |bit| bits >> bit & 1 == 1);
    (0..32)
        .map(|bits| set(bits).map(|bit| 40 + bit as u8).collect())
        .collect()
}

#[test]
fn of_all_faults_the_lowest_code_is_told_whatever_the_valve() {
    let other_code = [0x000e, 0, 0, 0xffff, 0x1811, 0x181e];
    for faults in sets() {
        let Some(first) = faults.first() else {
            continue;
        };
        for order in [ARM, FIRE, other_code] {
            let mut frame = bytes(&faulty(order, &faults));
            if faults.contains(&40) {
                frame.pop();
            }
            assert_eq!(ValveFrame::read(&frame), Err(Refusal::plain(*first)));
            for valve in VALVES {
                let expected = (*first, valve.status());
                assert_eq!(carry_out(valve, &frame), expected, "{faults:?}");
            }
        }
    }
}

#[test]
fn a_fresh_valve_is_safe() {
    assert_eq!(Valve::default(), Valve::Safe);
    assert_eq!(Valve::default().status(), 0);
}

#[test]
fn bit_14_is_armed_and_bits_14_and_15_are_fired() {
    assert_eq!(VALVES.map(Valve::status), [0x0000, 0x4000, 0xc000]);
}

#[test]
fn every_order_on_every_valve() {
    let wrong = bytes(&summed([0x000e, 0, 0, 0xffff, 0x1811]));
    let rows = [
        (Valve::Safe, [(0, 0x4000), (45, 0x0000), (45, 0x0000)]),
        (Valve::Armed, [(0, 0x4000), (0, 0xc000), (46, 0x4000)]),
        (Valve::Fired, [(0, 0xc000), (0, 0xc000), (46, 0xc000)]),
    ];
    for (valve, [arm, fire, other]) in rows {
        assert_eq!(carry_out(valve, &frame(ARM)), arm, "{valve:?}");
        assert_eq!(carry_out(valve, &frame(FIRE)), fire, "{valve:?}");
        assert_eq!(carry_out(valve, &wrong), other, "{valve:?}");
    }
}

#[test]
fn decoded_orders_do_what_their_frames_do() {
    for before in VALVES {
        for order in [Order::Arm, Order::Fire(0x1810), Order::Fire(0)] {
            let (mut decoded, mut carried) = (before, before);
            let frame = ValveFrame { flags: 2, order };
            let answers = [
                decoded.carry_out(order),
                carried.carry_out_bytes(&frame.bytes()),
            ];
            assert_eq!(answers[0], answers[1]);
            assert_eq!(decoded, carried);
        }
    }
}

#[test]
fn only_0x1810_fires() {
    for code in 0..=0xffff {
        for valve in VALVES {
            let mut after = valve;
            let answer = after.carry_out(Order::Fire(code));
            let expected = match (valve, code) {
                (Valve::Safe, _) => (45, 0x0000),
                (_, 0x1810) => (0, 0xc000),
                (Valve::Armed, _) => (46, 0x4000),
                (Valve::Fired, _) => (46, 0xc000),
            };
            let told = (code_and_finding(&answer).0, after.status());
            assert_eq!(told, expected, "{valve:?} {code:x}");
        }
    }
}

#[test]
fn the_flags_do_nothing_to_a_valve() {
    for first in [0x000e, 0x400e, 0x800e, 0xc00e] {
        let arm = bytes(&summed([first, 0xffff, 1, 0, 0]));
        let fire = bytes(&summed([first, 0, 0, 0xffff, 0x1810]));
        assert_eq!(carry_out(Valve::Safe, &arm), (0, 0x4000));
        assert_eq!(carry_out(Valve::Safe, &fire), (45, 0x0000));
        assert_eq!(carry_out(Valve::Armed, &fire), (0, 0xc000));
        assert_eq!(carry_out(Valve::Fired, &arm), (0, 0xc000));
    }
}

#[test]
fn arming_thrice_and_firing_twice_change_no_more_than_once() {
    let mut valve = Valve::default();
    let told = [ARM, ARM, ARM, FIRE, FIRE, ARM, FIRE].map(|first| {
        assert_eq!(valve.carry_out_bytes(&frame(first)), Ok(()));
        valve.status()
    });
    let expected = [0x4000, 0x4000, 0x4000, 0xc000, 0xc000, 0xc000, 0xc000];
    assert_eq!(told, expected);
}

#[test]
fn a_wrong_code_does_not_disarm() {
    let wrong = bytes(&summed([0x000e, 0, 0, 0xffff, 0x1018]));
    let mut valve = Valve::default();
    let told = [&frame(ARM), &wrong, &frame(FIRE), &wrong, &frame(FIRE)].map(|frame| {
        let answer = valve.carry_out_bytes(frame);
        (code_and_finding(&answer).0, valve.status())
    });
    let expected = [
        (0, 0x4000),
        (46, 0x4000),
        (0, 0xc000),
        (46, 0xc000),
        (0, 0xc000),
    ];
    assert_eq!(told, expected);
}

#[test]
fn a_fired_valve_was_armed_earlier() {
    let orders = [
        Order::Arm,
        Order::Fire(0x1810),
        Order::Fire(0x1811),
        Order::Fire(0),
    ];
    for choice in 0..4usize.pow(6) {
        let chosen = (0..6).map(|place| orders[choice / 4usize.pow(place) % 4]);
        let (mut valve, mut armed, mut fired) = (Valve::default(), false, false);
        for order in chosen {
            let before = valve.status();
            let taken = valve.carry_out(order).is_ok();
            match order {
                Order::Arm => armed |= taken,
                Order::Fire(code) => {
                    assert_eq!(taken, armed && code == 0x1810);
                    fired |= taken;
                }
            }
            let status = valve.status();
            assert_eq!(status & 0x4000 != 0, armed);
            assert_eq!(status & 0x8000 != 0, fired);
            assert!(armed || !fired);
            // No bit goes, and without a frame taken none comes.
            assert_eq!(status & before, before);
            assert!(taken || status == before);
        }
    }
}

#[test]
fn every_frame_is_written_and_read_again() {
    for flags in 0..4 {
        for code in 0..=0xffff {
            let order = Order::Fire(code);
            let frame = ValveFrame { flags, order };
            assert_eq!(ValveFrame::read(&frame.bytes()), Ok(frame));
        }
        let frame = ValveFrame {
            flags,
            order: Order::Arm,
        };
        assert_eq!(ValveFrame::read(&frame.bytes()), Ok(frame));
    }
}

#[test]
fn what_was_read_is_written_as_the_same_bytes() {
    for first in [ARM, FIRE, ARM_WITH_FLAGS, FIRE_WITH_FLAGS] {
        let told = ValveFrame::read(&frame(first)).expect("a good frame is taken");
        assert_eq!(told.bytes(), frame(first));
    }
    for code in 0..=0xffff {
        let bytes = bytes(&summed([0x400e, 0, 0, 0xffff, code]));
        let told = ValveFrame::read(&bytes).expect("any code is taken");
        assert_eq!(told.bytes(), bytes);
    }
}

#[test]
fn writing_needs_64_bytes_and_touches_no_more() {
    for (flags, order, first) in [
        (0, Order::Arm, ARM),
        (3, Order::Arm, ARM_WITH_FLAGS),
        (0, Order::Fire(0x1810), FIRE),
        (3, Order::Fire(0x1810), FIRE_WITH_FLAGS),
    ] {
        let told = ValveFrame { flags, order };
        for size in [0, 1, 12, 63] {
            let mut room = vec![FILL; size];
            assert_eq!(told.write(&mut room), Err(Refusal::plain(24)));
            assert!(room.iter().all(|byte| *byte == FILL));
        }
        for size in [64, 65, 128, 255] {
            let mut room = vec![FILL; size];
            assert_eq!(told.write(&mut room), Ok(64));
            assert_eq!(room[..64], frame(first));
            assert!(room[64..].iter().all(|byte| *byte == FILL));
        }
    }
}

//! Small scripts for the replay program for the gas valve, with the transcript each must give,
//! written by hand.

use reference::comparison::items::{fresh_valve, valve, valve_frame};
use reference::comparison::valve_frames::{arming, bytes, firing, mended, with};
use reference::valve_replay::transcript;

fn answer(items: &[Vec<u8>]) -> String {
    transcript(&items.concat())
}

fn arm() -> Vec<u8> {
    bytes(&arming(0))
}

fn fire() -> Vec<u8> {
    bytes(&firing(0, 0x1810))
}

/// The digits of a frame that has these in front, and zeros behind them.
fn digits(front: &str) -> String {
    format!("{front:0<128}")
}

#[test]
fn frames_carried_out() {
    let wrong = bytes(&firing(0, 0x1811));
    let items = [fire(), wrong.clone(), arm(), wrong, arm(), fire(), fire()];
    let expected = "valve 45 0000\nvalve 45 0000\nvalve 0 4000\nvalve 46 4000\nvalve 0 4000\n\
                    valve 0 c000\nvalve 0 c000\n";
    assert_eq!(answer(&items.map(|frame| valve(&frame))), expected);
    let items = [arm(), fire(), bytes(&firing(0, 0)), arm()];
    let expected = "valve 0 4000\nvalve 0 c000\nvalve 46 c000\nvalve 0 c000\n";
    assert_eq!(answer(&items.map(|frame| valve(&frame))), expected);
}

#[test]
fn frames_refused_on_every_valve() {
    let refused = [
        arm()[..63].to_vec(),
        bytes(&with(&arming(0), 5, 0)),
        bytes(&mended(with(&arming(0), 0, 0x000f))),
        bytes(&with(&arming(0), 6, 1)),
        bytes(&mended(with(&arming(0), 4, 0x1810))),
    ];
    let mut items = Vec::new();
    for before in [vec![], arm(), fire()] {
        items.extend((!before.is_empty()).then(|| valve(&before)));
        items.extend(refused.iter().map(|frame| valve(frame)));
    }
    let all = |status: &str| -> String {
        let codes = 40..=44;
        codes
            .map(|code| format!("valve {code} {status}\n"))
            .collect()
    };
    let expected = [
        &all("0000"),
        "valve 0 4000\n",
        &all("4000"),
        "valve 0 c000\n",
        &all("c000"),
    ];
    assert_eq!(answer(&items), expected.concat());
}

#[test]
fn a_fresh_valve_again() {
    let [arm, fire] = [arm(), fire()].map(|frame| valve(&frame));
    let fresh = fresh_valve();
    assert_eq!(answer(&[fresh.clone(), fresh.clone()]), "");
    let items = [
        &arm, &fresh, &fire, &arm, &fire, &fresh, &fresh, &fire, &arm,
    ];
    let expected = "valve 0 4000\nvalve 45 0000\nvalve 0 4000\nvalve 0 c000\nvalve 45 0000\n\
                    valve 0 4000\n";
    assert_eq!(answer(&items.map(Vec::clone)), expected);
}

#[test]
fn frames_read_and_written_again() {
    let items = [
        valve_frame(64, &arm()),
        valve_frame(65, &fire()),
        valve_frame(255, &bytes(&arming(3))),
        valve_frame(64, &bytes(&firing(1, 0xffff))),
        valve_frame(64, &bytes(&firing(2, 0))),
    ];
    let expected = [
        format!("frame 0 0 arm 0 {}\n", digits("000effff000100000000000e")),
        format!(
            "frame 0 0 fire 6160 0 {}\n",
            digits("000e00000000ffff1810181d")
        ),
        format!("frame 0 3 arm 0 {}\n", digits("c00effff000100000000c00e")),
        format!(
            "frame 0 1 fire 65535 0 {}\n",
            digits("400e00000000ffffffff400c")
        ),
        format!(
            "frame 0 2 fire 0 0 {}\n",
            digits("800e00000000ffff0000800d")
        ),
    ];
    assert_eq!(answer(&items), expected.concat());
}

#[test]
fn rooms_that_are_too_small() {
    for room in [0, 1, 63] {
        let items = [
            valve_frame(room, &arm()),
            valve_frame(room, &bytes(&firing(3, 0x1810))),
            valve_frame(room, &bytes(&firing(1, 24))),
            valve_frame(room, &arm()[1..]),
        ];
        let expected = "frame 0 0 arm 24\nframe 0 3 fire 6160 24\nframe 0 1 fire 24 24\nframe 40\n";
        assert_eq!(answer(&items), expected);
    }
}

#[test]
fn frames_that_are_not_read() {
    let items = [
        valve_frame(64, &[]),
        valve_frame(0, &[0; 65]),
        valve_frame(64, &[0xff; 64]),
        valve_frame(0, &[0; 64]),
        valve_frame(64, &bytes(&with(&firing(0, 0x1810), 31, 1))),
        valve_frame(64, &bytes(&mended(with(&firing(0, 0x1810), 1, 0xffff)))),
    ];
    let expected = "frame 40\nframe 40\nframe 41\nframe 42\nframe 43\nframe 44\n";
    assert_eq!(answer(&items), expected);
}

#[test]
fn reading_a_frame_changes_no_valve() {
    let (read_arm, read_fire) = (valve_frame(0, &arm()), valve_frame(0, &fire()));
    let items = [
        read_arm.clone(),
        valve(&fire()),
        valve(&arm()),
        read_fire,
        valve(&arm()),
        valve(&fire()),
        read_arm,
        valve(&[]),
    ];
    let expected = "frame 0 0 arm 24\nvalve 45 0000\nvalve 0 4000\nframe 0 0 fire 6160 24\n\
                    valve 0 4000\nvalve 0 c000\nframe 0 0 arm 24\nvalve 40 c000\n";
    assert_eq!(answer(&items), expected);
}

#[test]
fn by_its_bytes() {
    let mut script = vec![1, 64];
    script.extend(arm());
    script.extend([0, 1, 3, 9, 9, 9, 2, 64, 64]);
    script.extend(arm());
    script.extend([2, 0, 64]);
    script.extend(fire());
    let expected = format!(
        "valve 0 4000\nvalve 40 0000\nframe 0 0 arm 0 {}\nframe 0 0 fire 6160 24\n",
        digits("000effff000100000000000e")
    );
    assert_eq!(transcript(&script), expected);
}

#[test]
fn scripts_that_end_badly() {
    assert_eq!(answer(&[]), "");
    let good = valve(&arm());
    for first in 3..=255 {
        let items = [good.clone(), vec![first], good.clone()];
        assert_eq!(answer(&items), "valve 0 4000\nbad script\n", "{first}");
    }
    for item in [valve(&fire()), valve_frame(64, &arm()), valve(&[0; 255])] {
        for length in 1..item.len() {
            let items = [good.clone(), item[..length].to_vec()];
            assert_eq!(answer(&items), "valve 0 4000\nbad script\n", "{length}");
        }
    }
}

#[test]
fn scripts_above_65536_bytes_are_too_long() {
    let good = valve(&arm());
    // Each has 66 bytes, and 65,536 are 992 of them and 64.
    let mut items = vec![good; 992];
    items.extend(vec![fresh_valve(); 64]);
    assert_eq!(answer(&items), "valve 0 4000\n".repeat(992));
    items.push(fresh_valve());
    assert_eq!(answer(&items), "too long\n");
}

//! Fixed episodes about images with the power off: asked for in every way in, by
//! macros that switch the power themselves or have it switched between their
//! seconds, and series under way as power goes and comes.

use super::fixed_bench::{series, FOREVER, TOP};
use super::fixed_groups::{
    flush, nest, places, power, starts, stored, wait, watched_nest, Entries, REPORT_ROOM,
};
use super::items::{
    append, command, decoded, now, passed, raw, run, second, status, typed, watched, Item,
};
use crate::command::{Kind, TABLE};
use crate::macros::{FULLEST_SECOND, LONGEST_MACRO, SHARED_ENTRIES};

const SERIES: [Kind; 2] = [Kind::ImgImage, Kind::ImgTrack];
const TIMES: [u32; 6] = [0, 1, 2, 256, FOREVER - 1, FOREVER];
const OFF: u32 = 0;
const ON: u32 = 1;

/// A typed list of which some lines are refused, besides lines that are not.
pub(super) const TEXT: &str = "img_image 2 1\nimg_pwr 0\n# dark\nimg_image 1 1\n\
    img_track 65535 2\nimg_image 0 3\n\nimg_track 0 1\nopen 1\n+img_image 5 1\n+img_pwr 1\n\
    img_image 65535 1\n+img_track 3 1\nclose\nrun 1\nimg_track 9 9\nimg_pwr 1\nimg_track 4 1\n";

pub fn episodes() -> Vec<Vec<Item>> {
    let mut episodes: Vec<Vec<Item>> = SERIES.map(asked_for).to_vec();
    episodes.extend(SERIES.map(under_way));
    episodes.extend([OFF, ON].map(orders_in_a_group));
    episodes.extend([other_kinds(), by_lists(), by_texts(), for_ever()]);
    episodes.extend([over_nests(), switched_between_seconds(), beside_macros()]);
    episodes.extend([nothing_but_images(), dark_for_long(), no_entry_free()]);
    episodes
}

fn image(time: u32, interval: u32) -> Entries {
    raw(true, Kind::ImgImage, [time, interval])
}

fn track(time: u32, interval: u32) -> Entries {
    raw(true, Kind::ImgTrack, [time, interval])
}

/// Each time and interval, executed and appended, without an open macro and with
/// one, in the dark and not; what was appended is then handed over in both.
fn asked_for(kind: Kind) -> Vec<Item> {
    let mut items = Vec::new();
    for mode in [OFF, ON] {
        items.push(now(Kind::ImgPwr, mode));
        items.extend(each_time(kind));
        items.push(now(Kind::Open, 3));
        items.extend(each_time(kind));
        items.extend([now(Kind::Close, 0), status()]);
        for light in [mode, 1 - mode] {
            items.extend([now(Kind::ImgPwr, light), now(Kind::Run, 3)]);
            items.extend(watched(3));
        }
        items.extend([now(Kind::Clear, 0), series(kind, 0, 1)]);
    }
    items
}

fn each_time(kind: Kind) -> Vec<Item> {
    let mut items = Vec::new();
    for time in TIMES {
        for interval in [0, 1, 65535] {
            let set = [time, interval];
            for flag in [false, true] {
                items.extend([command(&raw(flag, kind, set)), status()]);
                items.extend([decoded(flag.into(), kind as u8, set), status()]);
            }
        }
    }
    items
}

/// Series begun with power on, which goes and comes again; in the dark another one of
/// either kind is refused and the earlier goes on, until a time of 0 ends it there.
fn under_way(kind: Kind) -> Vec<Item> {
    let mut items = Vec::new();
    for (time, interval) in [(6, 1), (9, 4), (1, 1), (2, 3), (FOREVER, 2)] {
        items.extend([now(Kind::ImgPwr, ON), series(kind, time, interval)]);
        items.extend(watched(1));
        items.push(now(Kind::ImgPwr, OFF));
        items.extend(watched(3));
        for asked in SERIES {
            items.extend([series(asked, 5, 1), series(asked, FOREVER, 7), status()]);
        }
        items.extend(watched(2));
        items.push(now(Kind::ImgPwr, ON));
        items.extend(watched(2));
        items.extend([series(kind, 4, 2), now(Kind::ImgPwr, OFF)]);
        items.extend(watched(1));
        items.extend([series(kind, 0, 7), status()]);
        items.extend(watched(2));
    }
    items
}

/// Every order of three entries that switch the power, ask for images or end a
/// series, in one second that begins with this power.
fn orders_in_a_group(mode: u32) -> Vec<Item> {
    let parts = [power(OFF), power(ON), image(3, 1), track(2, 1), image(0, 2)];
    let before = [
        raw(false, Kind::ImgImage, [0, 1]),
        raw(false, Kind::ImgTrack, [0, 1]),
        raw(false, Kind::ImgPwr, [mode, 0]),
        raw(false, Kind::Clear, [0; 2]),
    ]
    .concat();
    let mut items = Vec::new();
    for order in 0..parts.len().pow(3) {
        let places = [order / 25, order / 5 % 5, order % 5];
        let group = places.map(|place| parts[place].clone()).concat();
        items.push(run(REPORT_ROOM, &before, &stored(0, &group)));
        items.extend([now(Kind::Run, 0), second(), status()]);
        items.extend(watched(1));
    }
    items
}

/// No other kind minds the dark, whether it is taken or not.
fn other_kinds() -> Vec<Item> {
    let others = || TABLE.iter().filter(|row| !SERIES.contains(&row.kind));
    let mut items = Vec::new();
    for opened in [false, true] {
        if opened {
            items.push(now(Kind::Open, 2));
        }
        for row in others() {
            for flag in [false, true] {
                // Of the power this is OFF.
                items.push(command(&raw(flag, row.kind, [0, 1])));
                items.push(decoded(flag.into(), row.kind as u8, [2, 2]));
                items.push(status());
            }
        }
    }
    items
}

/// Power comes and goes in the kit's list and in the pupil's; a run that is refused
/// switches nothing.
fn by_lists() -> Vec<Item> {
    let switched = |mode| raw(false, Kind::ImgPwr, [mode, 0]);
    let asked = list();
    let pairs = [
        (switched(OFF), asked.clone()),
        (switched(ON), asked.clone()),
        (asked.clone(), switched(ON)),
        (Vec::new(), asked.clone()),
        (asked.clone(), asked),
    ];
    let mut items = Vec::new();
    for (kit, pupil) in pairs {
        for room in [REPORT_ROOM - 1, REPORT_ROOM] {
            items.extend([run(room, &kit, &pupil), status()]);
        }
        items.extend(watched(3));
        items.extend([now(Kind::Stop, 0), now(Kind::Clear, 0)]);
    }
    items
}

/// The commands of the text as a raw list.
pub fn list() -> Vec<u8> {
    let macro_list = stored(1, &[image(5, 1), power(ON), track(3, 1)].concat());
    let executed = |kind, set| raw(false, kind, set);
    [
        executed(Kind::ImgImage, [2, 1]),
        executed(Kind::ImgPwr, [OFF, 0]),
        executed(Kind::ImgImage, [1, 1]),
        executed(Kind::ImgTrack, [FOREVER, 2]),
        executed(Kind::ImgImage, [0, 3]),
        executed(Kind::ImgTrack, [0, 1]),
        macro_list,
        executed(Kind::ImgImage, [FOREVER, 1]),
        executed(Kind::Run, [1, 0]),
        executed(Kind::ImgTrack, [9, 9]),
        executed(Kind::ImgImage, [3, 0]),
        executed(Kind::ImgPwr, [ON, 0]),
        executed(Kind::ImgTrack, [4, 1]),
    ]
    .concat()
}

/// In a typed list the dark is a record's code; a bad line is still found first.
fn by_texts() -> Vec<Item> {
    let bad_lines = [
        "img_image 5 0",
        "+stop",
        "wait 1",
        "img_track 5",
        "image 1 1",
    ];
    let mut items = Vec::new();
    for kit_mode in [OFF, ON] {
        let kit = raw(false, Kind::ImgPwr, [kit_mode, 0]);
        for line in bad_lines {
            let text = format!("img_pwr 0\nimg_image 1 1\n{line}\n");
            items.extend([typed(REPORT_ROOM, &kit, text.as_bytes()), status()]);
        }
        for room in [REPORT_ROOM - 1, REPORT_ROOM] {
            items.extend([typed(room, &kit, TEXT.as_bytes()), status()]);
        }
        items.extend(watched(3));
        items.extend([typed(REPORT_ROOM, &[], TEXT.as_bytes()), status()]);
        items.extend([now(Kind::Stop, 0), now(Kind::Clear, 0)]);
    }
    items
}

/// 65,533 dark seconds: an endless series and one that runs out are both counted.
fn for_ever() -> Vec<Item> {
    let mut items = vec![
        now(Kind::ImgPwr, ON),
        series(Kind::ImgImage, FOREVER, 1),
        series(Kind::ImgTrack, FOREVER - 1, 7),
        now(Kind::ImgPwr, OFF),
        passed(65533),
        status(),
    ];
    items.extend(watched(3));
    items
}

/// Power is switched in one macro and images are asked for in others, all in the
/// same second.
fn over_nests() -> Vec<Item> {
    let crossing = [
        [
            starts(2, 1),
            starts(1, 1),
            starts(0, 1),
            starts(1, 2),
            wait(1),
        ]
        .concat(),
        [starts(1, 1), starts(2, 1), starts(1, 1), wait(2)].concat(),
        [
            image(7, 2),
            starts(0, 1),
            track(7, 2),
            starts(2, 1),
            flush(),
        ]
        .concat(),
    ]
    .concat();
    let asking = [image(4, 1), track(2, 1)].concat();
    let macros = [
        power(OFF),
        asking,
        power(ON),
        crossing,
        [starts(3, 2), starts(1, 1), starts(0, 1), starts(3, 1)].concat(),
    ];
    let mut items = Vec::new();
    for mode in [OFF, ON] {
        items.push(now(Kind::ImgPwr, mode));
        items.extend(watched_nest(&macros, 12));
        items.extend([now(Kind::Run, 4), passed(99), status()]);
    }
    // Each macro adds its own to the second of the one below.
    let mut chain = vec![image(1, 1)];
    for number in 0..TOP {
        let entries = [starts(number, 1), power(number % 2), track(number + 1, 1)];
        chain.push(entries.concat());
    }
    items.extend(watched_nest(&chain, 2));
    items
}

/// Power is switched before each second of a macro, in every way in.
fn switched_between_seconds() -> Vec<Item> {
    let asking = [image(3, 1), track(2, 2), wait(1)].concat();
    let mut items = nest(&[asking, starts(0, 24)]);
    for step in 0..25 {
        let mode = (step + step / 4) % 2;
        let switch = raw(false, Kind::ImgPwr, [mode, 0]);
        let text = format!("img_pwr {mode}");
        items.push(match step % 4 {
            0 => command(&switch),
            1 => decoded(0, Kind::ImgPwr as u8, [mode, 0]),
            2 => run(REPORT_ROOM, &[], &switch),
            _ => typed(REPORT_ROOM, &[], text.as_bytes()),
        });
        items.extend([second(), status()]);
    }
    items
}

/// Images asked for from outside while a macro runs, which switches the power, and
/// while another is open.
fn beside_macros() -> Vec<Item> {
    let running = [flush(), wait(2), power(ON), wait(2), power(OFF), wait(3)].concat();
    let mut items = nest(&[running]);
    items.push(now(Kind::Open, 5));
    for _ in 0..7 {
        for kind in SERIES {
            items.extend([series(kind, 2, 1), status()]);
            items.push(command(&raw(true, kind, [3, 1])));
        }
        items.extend([second(), status()]);
        items.extend([series(Kind::ImgImage, 0, 5), status()]);
    }
    items.extend([now(Kind::Close, 0), now(Kind::Run, 5)]);
    items.extend(watched(2));
    items
}

/// A macro whose every entry is refused ends as any other does.
fn nothing_but_images() -> Vec<Item> {
    let mut items = Vec::new();
    for count in [1, 2, 3, FULLEST_SECOND, FULLEST_SECOND + 1] {
        let crowd: Entries = (0..count as u32)
            .flat_map(|place| match place % 3 {
                0 => track(place + 1, 1),
                _ => image(place + 1, 2),
            })
            .collect();
        for behind in [
            Vec::new(),
            wait(1),
            wait(3),
            [wait(1), image(1, 1)].concat(),
        ] {
            for mode in [OFF, ON] {
                items.extend([now(Kind::Stop, 0), now(Kind::Clear, 0)]);
                items.push(now(Kind::ImgPwr, mode));
                items.extend(nest(&[[&crowd[..], &behind].concat()]));
                items.extend([second(), status(), passed(3), status()]);
                items.extend([now(Kind::Run, 0), passed(1), status(), passed(4)]);
            }
        }
    }
    items
}

/// A macro of the greatest length that asks in vain every second, and one that has
/// power in every other one.
fn dark_for_long() -> Vec<Item> {
    let long = LONGEST_MACRO as u16;
    let asking = [image(9, 1), places(1), track(9, 1), wait(1)].concat();
    let switched = [asking.clone(), power(ON), asking.clone(), power(OFF)].concat();
    let mut items = Vec::new();
    for (first, times) in [(asking, 25), (switched, 12)] {
        items.extend([now(Kind::Stop, 0), now(Kind::Clear, 0)]);
        items.extend(nest(&[first, starts(0, 24), starts(1, times)]));
        items.extend(watched(2));
        items.extend([passed(long / 2), status(), passed(long), status()]);
    }
    items
}

/// Where no entry is free an appended image is refused for that, dark or not, and an
/// executed one for the dark.
fn no_entry_free() -> Vec<Item> {
    let spaced = [places(31), wait(1)].concat().repeat(SHARED_ENTRIES / 32);
    let open = raw(false, Kind::Open, [6, 0]);
    let mut items = vec![run(REPORT_ROOM, &open, &spaced), status()];
    for mode in [OFF, ON] {
        items.push(now(Kind::ImgPwr, mode));
        for kind in SERIES {
            items.extend([append(kind, 0), command(&raw(true, kind, [5, 1]))]);
            items.extend([series(kind, 5, 1), status(), series(kind, 0, 1)]);
        }
    }
    items.extend([now(Kind::Close, 0), now(Kind::Run, 6), second(), status()]);
    items
}

//! Whole inputs for the programs for typed lists: fixed ones for each sort of
//! answer and each limit, then random ones.

use super::fixed_wire::{faulty, flush};
use super::items::raw;
use super::rng::Rng;
use super::texts::{self, lengthened};
use super::{fixed_dark, fixed_range, fixed_range_lines};
use crate::command::Kind;
use crate::macros::SHARED_ENTRIES;
use crate::run::LONGEST_LIST;
use crate::text::LONGEST_TEXT;

/// Texts for the two programs that read one.
pub fn texts(rng: &mut Rng, random: usize) -> Vec<Vec<u8>> {
    let small = [
        "",
        "\n",
        "#",
        "stop",
        "\nopen 1\n+tlm_flush\n# remark\n+wait 2\nclose\nrun 1\nrun 2\nclear\n",
        "trk_goal 511.5 0\nimg_track 10 26\nstop\n",
        "stop\nstops\n",
        "stop\n\nrun\n",
        "run x",
        "#\nrun 8\n",
        "img_region 0 1024",
        "trk_goal 1024 0",
        "+stop\n",
        "\n\nwait 1\n",
        "stop\r\n",
        "\0\n",
        fixed_dark::TEXT,
        "img_pwr 0\nimg_track 1 1\nimg_track 1 0\n",
    ];
    let mut all: Vec<Vec<u8>> = small.iter().map(|text| text.as_bytes().to_vec()).collect();
    all.extend(fixed_range_lines::texts());
    all.extend([512, 513].map(|times| b"tlm_flush\n".repeat(times)));
    let groups = [(SHARED_ENTRIES + 1, 1), (2, SHARED_ENTRIES / 2)];
    for (each, times) in groups.into_iter().chain([(64, 1), (64, 2), (65, 1)]) {
        let group = "+tlm_flush\n".repeat(each);
        let appends = [group, "+wait 1\n".into()].concat().repeat(times);
        all.push(format!("open 7\n{appends}close\nrun 7\n").into_bytes());
    }
    all.extend([0, 1].map(|more| lengthened(b"stop", LONGEST_TEXT + more)));
    all.push(vec![b'\n'; LONGEST_TEXT]);
    all.extend((0..random).map(|_| {
        let lines = if rng.percent(10) { 300 } else { rng.below(30) };
        let damage = rng.pick(&[0, 2, 20]);
        texts::text(rng, lines, damage)
    }));
    all
}

/// Raw lists for the program that reads one.
pub fn raw_lists(rng: &mut Rng, random: usize) -> Vec<Vec<u8>> {
    let goal = |first, second| raw(false, Kind::TrkGoal, [first, second]);
    let mut all = vec![
        Vec::new(),
        flush(),
        goal(0x43ff_c000, 0),
        goal(0x8000_0000, 0),
        [flush(), goal(0x3f80_0000, 0x3e00_0000)].concat(),
        [flush(), goal(0x3f80_0000, 0x4480_0000)].concat(),
        [&flush()[..], &[1, 2, 3]].concat(),
        raw(true, Kind::Stop, [0; 2]),
        raw(false, Kind::Wait, [1, 0]),
    ];
    all.extend((0..7).map(|fault| faulty(Kind::ImgPwr.row(), 1 << fault)));
    all.extend(fixed_range::raw_lists());
    let full = flush().repeat(LONGEST_LIST);
    all.extend([0, 1].map(|more| full[..LONGEST_LIST + more].to_vec()));
    all.extend((0..random).map(|_| {
        let commands = if rng.percent(10) { 250 } else { rng.below(30) };
        let odd = rng.pick(&[0, 2, 20]);
        texts::raw_list(rng, commands, odd)
    }));
    all
}

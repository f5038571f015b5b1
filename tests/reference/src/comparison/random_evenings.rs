//! Random lists split over evenings, each part aimed at the state that those before it
//! leave, behind starts of every sort; some parts long, some empty, some rooms too small.

use super::damage::random_list;
use super::evenings::{look, rummage, Evenings, Sort};
use super::fixed_evenings::starts;
use super::items::{passed, run, Item};
use super::random::Maker;
use super::rng::Rng;
use crate::run::{commands_of, LONGEST_LIST, SMALLEST_REPORT_ROOM};
use crate::wire::extent;

const REPORT_ROOM: u16 = SMALLEST_REPORT_ROOM as u16;

/// How many commands or lines a part has.
const FEW: [usize; 8] = [0, 1, 2, 3, 5, 9, 16, 30];
const MANY: [usize; 3] = [60, 150, 300];
/// How many seconds pass behind the last evening, and for each macro that is started there.
/// Seconds take longer than anything else that is sent.
const SECONDS: [u16; 5] = [0, 1, 5, 30, 100];
const FEW_SECONDS: [u16; 3] = [1, 2, 5];

/// A list in so many parts, always the same for the same generator.
pub fn evenings(rng: Rng, parts: usize) -> Evenings {
    let mut maker = Maker::new(rng);
    let before = maker.start();
    let sort = match maker.rng.percent(35) {
        true => Sort::Typed,
        false => Sort::Raw,
    };
    Evenings {
        sort,
        room: maker.evenings_room(),
        before,
        parts: maker.parts(sort, parts),
        behind: maker.behind(),
    }
}

impl Maker {
    fn start(&mut self) -> Vec<Item> {
        self.first_light();
        let starts = starts();
        let start = self.rng.below(starts.len());
        self.push_all(starts[start].clone());
        if self.rng.percent(40) {
            let (kit, pupil) = self.aimed_lists();
            self.push(run(REPORT_ROOM, &kit, &pupil));
        }
        if self.rng.percent(30) {
            let seconds = self.rng.below(9) as u16;
            self.push(passed(seconds));
        }
        std::mem::take(&mut self.items)
    }

    /// Mostly just enough.
    fn evenings_room(&mut self) -> u16 {
        match self.rng.percent(25) {
            true => self.report_room(),
            false => REPORT_ROOM,
        }
    }

    /// All parts but the last one end between two commands or lines.
    fn parts(&mut self, sort: Sort, count: usize) -> Vec<Vec<u8>> {
        let mut parts: Vec<Vec<u8>> = Vec::new();
        for part in 1..=count {
            let cut_off = part == count;
            let list = match sort {
                Sort::Raw => self.raw_part(LONGEST_LIST - parts.concat().len(), cut_off),
                Sort::Typed => self.typed_part(cut_off),
            };
            parts.push(list);
        }
        parts
    }

    /// A list of at most so many bytes.
    fn raw_part(&mut self, most: usize, cut_off: bool) -> Vec<u8> {
        let damage = self.rng.pick(&[0, 1, 10]);
        let mut list = match self.rng.percent(6) {
            true => {
                let commands = self.rng.pick(&MANY);
                random_list(&mut self.rng, commands, damage, most)
            }
            false => {
                let commands = self.rng.pick(&FEW);
                self.aimed_commands(commands, damage)
            }
        };
        list.truncate(most);
        match cut_off {
            true => list,
            false => without_ends(&list),
        }
    }

    /// Now and then with a bad line.
    fn typed_part(&mut self, cut_off: bool) -> Vec<u8> {
        let lines = match self.rng.percent(4) {
            true => self.rng.pick(&MANY),
            false => self.rng.pick(&FEW),
        };
        let mut text = self.aimed_lines(lines);
        let within_a_line = text.last().is_some_and(|byte| *byte != b'\n');
        if within_a_line && !cut_off {
            text.push(b'\n');
        }
        text
    }

    fn behind(&mut self) -> Vec<Item> {
        let mut items = look(self.rng.pick(&SECONDS));
        if self.rng.percent(40) {
            items.extend(rummage(self.rng.pick(&FEW_SECONDS)));
        }
        items
    }
}

/// The list without bytes that have code 1, 2 or 3.
fn without_ends(list: &[u8]) -> Vec<u8> {
    let commands = commands_of(list).into_iter();
    let whole = commands.filter(|one| extent(one).is_ok());
    whole.collect::<Vec<_>>().concat()
}

//! The random scripts' items about several commands in the same second: groups
//! aimed at the fullest one, in one macro and over several, lengths aimed at the
//! longest by waits, and macros that would come to millions of entries.

use super::damage::{acting_kind, arguments};
use super::items::{command, now, status};
use super::random::Maker;
use super::random_pool::bytes_of;
use crate::command::{Command, Kind};
use crate::macros::{FULLEST_SECOND, LONGEST_MACRO, MACROS, SHARED_ENTRIES};
use crate::outline::Outline;
use crate::replay::Script;

/// What is to be sent; the shadow tries each command out as it is planned.
pub(super) type Plan = Vec<Command>;

impl Maker {
    /// Macros in rising order, the last of them aimed at a limit, then runs.
    pub(super) fn groups_episode(&mut self) {
        let macros = self.rng.pick(&[1, 2, 2, 3, 4, 5, MACROS]);
        for number in 0..macros {
            let last = number + 1 == macros;
            self.send_planned(number, |maker, plan| match last {
                true => maker.aimed_parts(plan),
                false => maker.small_parts(plan),
            });
            if self.shadow.bench.macros.open.is_some() {
                break;
            }
        }
        self.run_macro(macros as u32 - 1);
        self.run_a_macro();
    }

    /// Each macro starts the one below many times, the last one as often as entries
    /// are free.
    pub(super) fn many_runs_episode(&mut self) {
        let (size, seconds, often) = self.first_of_many();
        self.send_planned(0, |maker, plan| {
            maker.fill_second(plan, size);
            maker.wait(plan, seconds);
        });
        for number in 0..=often.len() {
            let free = self.shadow.bench.macros.free_entries();
            let times = often.get(number).copied().unwrap_or(free);
            let start = Command::new(true, Kind::Run, [number as u32, 0]);
            self.send_planned(number + 1, |maker, plan| {
                (0..times).for_each(|_| maker.plan(plan, start));
            });
        }
        self.run_a_macro();
    }

    /// The entries and the WAIT of the first macro, and how often each of the next
    /// ones starts the one below.
    fn first_of_many(&mut self) -> (usize, usize, &'static [usize]) {
        match self.rng.below(4) {
            // All others start it: a length that would seem small to two bytes.
            0 => (1, (1 << 16) / (SHARED_ENTRIES - 2) + 1, &[]),
            // A macro as long and as full as may be, and then millions of entries.
            1 => (FULLEST_SECOND, 1, &[24, 25]),
            _ => {
                let often: [&[usize]; 5] = [&[], &[2], &[24], &[2, 8], &[8, 24]];
                let size = self.rng.pick(&[1, 32, FULLEST_SECOND]);
                let seconds = self.rng.pick(&[0, 0, 1, 2]);
                (size, seconds, self.rng.pick(&often))
            }
        }
    }

    /// Opens the macro, fills it as planned and closes it, by any sort of item.
    pub(super) fn send_planned(&mut self, number: usize, fill: impl FnOnce(&mut Self, &mut Plan)) {
        let before = self.shadow.clone();
        let mut plan = Plan::new();
        let open = Command::new(false, Kind::Open, [number as u32, 0]);
        self.plan(&mut plan, open);
        fill(self, &mut plan);
        plan.push(Command::new(false, Kind::Close, [0; 2]));
        self.shadow = before;
        self.send(&plan);
        if self.rng.percent(10) {
            self.push_all([now(Kind::Close, 0), status()]);
        }
    }

    pub(super) fn plan(&mut self, plan: &mut Plan, planned: Command) {
        let item = command(&bytes_of(&planned));
        self.shadow.item(&mut Script::new(&item));
        plan.push(planned);
    }

    /// A group or two that leave room for more in the same second, with WAITs
    /// before, between and behind them, or not.
    fn small_parts(&mut self, plan: &mut Plan) {
        self.some_waits(plan, 20);
        for _ in 0..self.rng.within(1, 2) {
            let aim = self.rng.pick(&[1, 2, 5, 8, 16, 31, 32]);
            self.fill_second(plan, aim);
            self.some_waits(plan, 30);
        }
    }

    /// Groups one below the fullest, the fullest, or one past it; and lengths about
    /// the longest.
    fn aimed_parts(&mut self, plan: &mut Plan) {
        self.some_waits(plan, 30);
        for _ in 0..self.rng.within(1, 3) {
            let full = FULLEST_SECOND - 1 + self.rng.pick(&[0, 1, 1, 2]);
            let aim = if self.rng.percent(60) { full } else { 2 };
            self.aimed_group(plan, aim);
            self.some_waits(plan, 60);
        }
        if self.rng.percent(40) {
            self.aimed_length(plan);
        }
    }

    /// The outline of the open macro as far as it is planned.
    fn so_far(&self) -> Outline {
        self.shadow.bench.macros.open_outline()
    }

    fn wait(&mut self, plan: &mut Plan, seconds: usize) {
        if (1..=LONGEST_MACRO).contains(&seconds) {
            let wait = Command::new(true, Kind::Wait, [seconds as u32, 0]);
            self.plan(plan, wait);
        }
    }

    /// So many times in a hundred, one WAIT or several in a row.
    pub(super) fn some_waits(&mut self, plan: &mut Plan, chance: usize) {
        while self.rng.percent(chance) {
            let most = self.rng.pick(&[1, 3, 3, 120]);
            let seconds = self.rng.within(1, most);
            self.wait(plan, seconds);
        }
    }

    /// The closed macros of which this is true.
    pub(super) fn closed_ones(&self, wanted: impl Fn(Outline) -> bool) -> Vec<usize> {
        let macros = &self.shadow.bench.macros;
        let closed = (0..MACROS).filter(|number| macros.closed[*number]);
        closed
            .filter(|number| wanted(macros.outline(*number)))
            .collect()
    }

    /// Fills the second under way; now and then its last entries are the first ones
    /// of a macro that has a WAIT behind them.
    fn aimed_group(&mut self, plan: &mut Plan, aim: usize) {
        let ending = self.closed_ones(|it| it.waited > 0 && it.first <= aim);
        if ending.is_empty() || self.rng.percent(50) {
            return self.fill_second(plan, aim);
        }
        let number = self.rng.pick(&ending);
        let first = self.shadow.bench.macros.outline(number).first;
        self.fill_second(plan, aim - first);
        self.plan(plan, Command::new(true, Kind::Run, [number as u32, 0]));
    }

    /// Appends until the second under way has so many entries, by starting macros
    /// without a WAIT where they fit, or by single entries.
    fn fill_second(&mut self, plan: &mut Plan, aim: usize) {
        for _ in 0..aim {
            let missing = aim.saturating_sub(self.so_far().last);
            let fitting = self.closed_ones(|it| it.waited == 0 && it.first <= missing);
            let entry = match fitting.is_empty() || self.rng.percent(25) {
                true => self.acting_entry(),
                false => Command::new(true, Kind::Run, [self.rng.pick(&fitting) as u32, 0]),
            };
            if missing > 0 {
                self.plan(plan, entry);
            }
        }
    }

    fn acting_entry(&mut self) -> Command {
        let kind = acting_kind(&mut self.rng);
        Command::new(true, kind, arguments(&mut self.rng, kind, 0))
    }

    /// Waits until the macro is one second shorter than the longest, as long, or one
    /// longer, with an entry behind the last WAIT or without.
    fn aimed_length(&mut self, plan: &mut Plan) {
        let aim = LONGEST_MACRO - 1 + self.rng.below(3);
        let behind = self.rng.below(2);
        let missing = (aim - behind).saturating_sub(self.so_far().waited);
        let cut = self.rng.below(missing + 1);
        let cut = if self.rng.percent(30) { 0 } else { cut };
        self.wait(plan, cut);
        if cut > 0 && self.rng.percent(30) {
            self.fill_second(plan, 3);
        }
        self.wait(plan, missing - cut);
        self.fill_second(plan, behind);
    }
}

//! The random scripts' items about images with the power off: macros whose seconds
//! switch the power and ask for images, run while power is switched from outside, in
//! every way in.

use super::damage::{acting_kind, arguments};
use super::items::{command, now, passed, second, status};
use super::random::Maker;
use super::random_groups::Plan;
use super::random_pool::bytes_of;
use crate::bench::FOREVER;
use crate::command::{Command, Kind};

/// So many seconds of a macro are shown one by one; the others are counted.
const MOST_STEPS: usize = 25;

impl Maker {
    /// Power is on before most of the items that follow, so that series really run.
    pub(super) fn first_light(&mut self) {
        if self.rng.percent(60) {
            self.push(now(Kind::ImgPwr, 1));
        }
    }

    /// Macros that switch the power and ask for images, then runs of them.
    pub(super) fn dark_episode(&mut self) {
        for number in 0..self.rng.within(1, 4) {
            self.send_planned(number, |maker, plan| maker.dark_parts(plan));
            self.ask_outside();
        }
        for _ in 0..self.rng.within(1, 3) {
            self.run_in_changing_light();
        }
    }

    /// Groups of a few entries; every tenth starts a lower macro, or is anything.
    fn dark_parts(&mut self, plan: &mut Plan) {
        for _ in 0..self.rng.within(1, 4) {
            for _ in 0..self.rng.within(1, 12) {
                let entry = match self.rng.percent(90) {
                    true => self.light_or_image(true),
                    false => self.start_or_act(),
                };
                self.plan(plan, entry);
            }
            self.some_waits(plan, 40);
        }
    }

    fn start_or_act(&mut self) -> Command {
        let lower = self.closed_ones(|_| true);
        if lower.is_empty() || self.rng.percent(30) {
            let kind = acting_kind(&mut self.rng);
            return Command::new(true, kind, arguments(&mut self.rng, kind, 0));
        }
        Command::new(true, Kind::Run, [self.rng.pick(&lower) as u32, 0])
    }

    /// Power either way, or an IMAGE or TRACK.
    pub(super) fn light_or_image(&mut self, appended: bool) -> Command {
        let kind = self
            .rng
            .pick(&[Kind::ImgPwr, Kind::ImgImage, Kind::ImgTrack]);
        let set = match kind {
            Kind::ImgPwr => [self.rng.below(2) as u32, 0],
            _ => self.series_arguments(),
        };
        Command::new(appended, kind, set)
    }

    /// Times at which series are judged differently, and intervals that mostly let
    /// their images be seen.
    fn series_arguments(&mut self) -> [u32; 2] {
        let forever = u32::from(FOREVER);
        let any = self.rng.word() >> 16;
        let times = [0, 0, 1, 1, 2, 5, 9, 256, forever - 1, forever, forever, any];
        let intervals = [1, 1, 1, 1, 2, 2, 3, 7, forever, any.max(1)];
        [self.rng.pick(&times), self.rng.pick(&intervals)]
    }

    /// A few of these commands from outside, by any sort of item.
    fn ask_outside(&mut self) {
        let count = self.rng.below(4);
        if count == 0 {
            return;
        }
        let mut commands = Vec::new();
        for _ in 0..count {
            let appended = self.rng.percent(10);
            commands.push(self.light_or_image(appended));
        }
        self.send(&commands);
    }

    /// Runs a macro; before about every other second something is asked from outside.
    fn run_in_changing_light(&mut self) {
        let number = self.likely_number();
        self.push_all([now(Kind::Run, number), status()]);
        let left = self.shadow.bench.seconds_left();
        for _ in 0..left.min(MOST_STEPS) + 1 {
            if self.rng.percent(40) {
                self.ask_outside();
            }
            self.push(second());
            if self.rng.percent(50) {
                self.push(status());
            }
        }
        let left = self.shadow.bench.seconds_left();
        self.push_all([passed(left as u16 + 1), status()]);
    }

    /// Power switched and an image asked for at once, each by a single command.
    pub(super) fn switch_and_ask(&mut self) {
        for _ in 0..self.rng.within(1, 3) {
            let one = self.light_or_image(false);
            self.push(command(&bytes_of(&one)));
        }
    }
}

//! The comparison's command line: which programs, which seed, how much, and
//! what each of these is when it is not given.

use super::program::Program;

pub const USAGE: &str = "usage: compare --replay \"CMD\" --list \"CMD\" \
    --typed \"CMD\" --assemble \"CMD\" --lister \"CMD\" --cases \"CMD\" --lists_replay \"CMD\" \
    --to_card \"CMD\" --from_card \"CMD\" --rescue_list \"CMD\" --valve_replay \"CMD\" \
    --seats_replay \"CMD\" [--seed N] [--lists N] [--inputs N] [--sums N] [--evenings N] \
    [--indexes N] [--cards N] [--rescues N] [--valves N] [--seats N] [--answers N]";

pub struct Options {
    pub replay: Program,
    pub list: Program,
    pub typed: Program,
    pub assemble: Program,
    pub lister: Program,
    pub cases: Program,
    pub lists_replay: Program,
    pub to_card: Program,
    pub from_card: Program,
    pub rescue_list: Program,
    pub valve_replay: Program,
    pub seats_replay: Program,
    pub seed: u64,
    /// How many random lists are sent, besides those of 0, 4,096 and 4,097 bytes.
    pub lists: usize,
    /// How many random inputs each program for typed lists, for lists on a card and for
    /// damaged ones gets, besides the fixed ones.
    pub inputs: usize,
    /// How many random sums the cases program is asked for, besides the fixed ones.
    pub sums: usize,
    /// How many random lists are split over two evenings, besides the fixed ones; half as
    /// many more are split over three.
    pub evenings: usize,
    /// How many random lists grow, and how many random ones are indexed and looked up by
    /// offsets of any sort, besides the fixed ones.
    pub indexes: usize,
    /// How many random lists go to a card or come off it and come back, and how often a
    /// few random ones of any sort do either, besides the fixed ones.
    pub cards: usize,
    /// How many random damaged lists are rescued, and how many more are rescued, and what
    /// was kept of them is again, besides the fixed ones.
    pub rescues: usize,
    /// How many random walks a valve takes, and how many valves take random items of any
    /// sort, besides the fixed ones.
    pub valves: usize,
    /// How many random sittings the four-seat bench has, besides the fixed ones.
    pub seats: usize,
    /// How many transcript lines are to be compared at least.
    pub answers: u64,
}

const DEFAULT_SEED: u64 = 1;
const DEFAULT_LISTS: usize = 150;
const DEFAULT_INPUTS: usize = 40;
const DEFAULT_SUMS: usize = 400;
const DEFAULT_EVENINGS: usize = 600;
const DEFAULT_INDEXES: usize = 600;
const DEFAULT_CARDS: usize = 600;
const DEFAULT_RESCUES: usize = 600;
const DEFAULT_VALVES: usize = 600;
const DEFAULT_SEATS: usize = 600;
const DEFAULT_ANSWERS: u64 = 240_000;

/// The same options while it is not yet known whether all have been given.
#[derive(Default)]
struct Given {
    replay: Option<Program>,
    list: Option<Program>,
    typed: Option<Program>,
    assemble: Option<Program>,
    lister: Option<Program>,
    cases: Option<Program>,
    lists_replay: Option<Program>,
    to_card: Option<Program>,
    from_card: Option<Program>,
    rescue_list: Option<Program>,
    valve_replay: Option<Program>,
    seats_replay: Option<Program>,
    seed: Option<u64>,
    lists: Option<usize>,
    inputs: Option<usize>,
    sums: Option<usize>,
    evenings: Option<usize>,
    indexes: Option<usize>,
    cards: Option<usize>,
    rescues: Option<usize>,
    valves: Option<usize>,
    seats: Option<usize>,
    answers: Option<u64>,
}

impl Given {
    /// Takes one option; none where its name or its value is unknown.
    fn take(&mut self, name: &str, value: &str) -> Option<()> {
        match name {
            "--replay" => self.replay = Program::new(value),
            "--list" => self.list = Program::new(value),
            "--typed" => self.typed = Program::with_errors(value),
            "--assemble" => self.assemble = Program::with_errors(value),
            "--lister" => self.lister = Program::with_errors(value),
            "--cases" => self.cases = Program::new(value),
            "--lists_replay" => self.lists_replay = Program::new(value),
            "--to_card" => self.to_card = Program::with_errors(value),
            "--from_card" => self.from_card = Program::with_errors(value),
            "--rescue_list" => self.rescue_list = Program::with_errors(value),
            "--valve_replay" => self.valve_replay = Program::new(value),
            "--seats_replay" => self.seats_replay = Program::new(value),
            "--seed" => self.seed = Some(value.parse().ok()?),
            "--lists" => self.lists = Some(value.parse().ok()?),
            "--inputs" => self.inputs = Some(value.parse().ok()?),
            "--sums" => self.sums = Some(value.parse().ok()?),
            "--evenings" => self.evenings = Some(value.parse().ok()?),
            "--indexes" => self.indexes = Some(value.parse().ok()?),
            "--cards" => self.cards = Some(value.parse().ok()?),
            "--rescues" => self.rescues = Some(value.parse().ok()?),
            "--valves" => self.valves = Some(value.parse().ok()?),
            "--seats" => self.seats = Some(value.parse().ok()?),
            "--answers" => self.answers = Some(value.parse().ok()?),
            _ => return None,
        }
        Some(())
    }
}

impl Options {
    pub fn from(mut arguments: impl Iterator<Item = String>) -> Option<Self> {
        let mut given = Given::default();
        while let Some(name) = arguments.next() {
            given.take(&name, &arguments.next()?)?;
        }
        Some(Options {
            replay: given.replay?,
            list: given.list?,
            typed: given.typed?,
            assemble: given.assemble?,
            lister: given.lister?,
            cases: given.cases?,
            lists_replay: given.lists_replay?,
            to_card: given.to_card?,
            from_card: given.from_card?,
            rescue_list: given.rescue_list?,
            valve_replay: given.valve_replay?,
            seats_replay: given.seats_replay?,
            seed: given.seed.unwrap_or(DEFAULT_SEED),
            lists: given.lists.unwrap_or(DEFAULT_LISTS),
            inputs: given.inputs.unwrap_or(DEFAULT_INPUTS),
            sums: given.sums.unwrap_or(DEFAULT_SUMS),
            evenings: given.evenings.unwrap_or(DEFAULT_EVENINGS),
            indexes: given.indexes.unwrap_or(DEFAULT_INDEXES),
            cards: given.cards.unwrap_or(DEFAULT_CARDS),
            rescues: given.rescues.unwrap_or(DEFAULT_RESCUES),
            valves: given.valves.unwrap_or(DEFAULT_VALVES),
            seats: given.seats.unwrap_or(DEFAULT_SEATS),
            answers: given.answers.unwrap_or(DEFAULT_ANSWERS),
        })
    }

    /// Every program that is to be started.
    pub fn programs(&self) -> [&Program; 12] {
        [
            &self.replay,
            &self.list,
            &self.typed,
            &self.assemble,
            &self.lister,
            &self.cases,
            &self.lists_replay,
            &self.to_card,
            &self.from_card,
            &self.rescue_list,
            &self.valve_replay,
            &self.seats_replay,
        ]
    }
}

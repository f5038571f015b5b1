//! The random comparison of the replay programs, a list program, the programs for
//! typed lists, for lists on a card and for damaged ones and a cases program with the
//! reference, and of the replay programs' answers with each other. Exits with 0 when nothing
//! differs and every code occurred, with 1 when not, and with 2 when it was not told what
//! to compare.

use std::process::ExitCode;
use std::time::Instant;

use reference::comparison::agreement::disagreement;
use reference::comparison::evenings::Evenings;
use reference::comparison::fixed::batches;
use reference::comparison::growths::{self, Growth};
use reference::comparison::items::Item;
use reference::comparison::options::{Options, USAGE};
use reference::comparison::program::Program;
use reference::comparison::report::{answered, item_of_line, report, report_disagreement, Differs};
use reference::comparison::rng::Rng;
use reference::comparison::salvages::{self, Answers, Salvage};
use reference::comparison::shrink::{bytes, commands, lines, numbers};
use reference::comparison::sittings::{self, Sitting};
use reference::comparison::tally::{grouped, Tally};
use reference::comparison::trips::{self, Trip};
use reference::comparison::walks::{self, Walk};
use reference::comparison::{fixed, fixed_dark, fixed_range, inputs, random, sums};
use reference::comparison::{fixed_cards, random_cards};
use reference::comparison::{fixed_evenings, random_evenings};
use reference::comparison::{fixed_growths, fixed_index, random_index};
use reference::comparison::{fixed_rescues, random_rescues};
use reference::comparison::{fixed_seats, random_seats};
use reference::comparison::{fixed_valve, random_valve};
use reference::list::listing;
use reference::lists_replay;
use reference::pictures::answers;
use reference::programs::{assembler, from_card, lister, rescue_list, to_card, typed};
use reference::replay::{self, Replay, Script};
use reference::run::LONGEST_LIST;
use reference::seats_replay::{self, SeatsReplay};
use reference::valve_replay::{self, ValveReplay};

/// How much was sent and compared: scripts to the replay programs and the lines
/// of their answers, lists to the list program, inputs to the programs for typed
/// lists, for lists on a card and for damaged ones, and sums to the cases program; and lists
/// split over two evenings and over three, lists that grow, lists that go to a card or come
/// off it and come back, damaged lists that are rescued and rescued again, walks of a valve,
/// and sittings at the four-seat bench, whose scripts and answers are among the others.
#[derive(Default)]
struct Sent {
    scripts: u64,
    answers: u64,
    lists: usize,
    inputs: usize,
    sums: usize,
    pairs: usize,
    triples: usize,
    growths: usize,
    trips: usize,
    salvages: usize,
    walks: usize,
    sittings: usize,
}

impl Sent {
    /// All but the scripts and the answers.
    fn others(&self) -> String {
        let (lists, inputs) = (self.lists, self.inputs);
        let [sums, pairs, triples] =
            [self.sums, self.pairs, self.triples].map(|it| grouped(it as u64));
        let [growths, trips] = [self.growths, self.trips].map(|it| grouped(it as u64));
        let [salvages, walks, sittings] =
            [self.salvages, self.walks, self.sittings].map(|it| grouped(it as u64));
        format!(
            "{lists} lists, {inputs} inputs, {sums} sums, \
             {pairs} pairs and {triples} triples of evenings, {growths} growing lists, \
             {trips} lists there and back, {salvages} lists rescued twice, \
             {walks} walks of a valve, {sittings} sittings at a bench"
        )
    }
}

/// Streams of random numbers for whole inputs lie far from those for scripts.
const LIST_STREAM: u64 = 1 << 32;
const TEXT_STREAM: u64 = 2 << 32;
const RAW_STREAM: u64 = 3 << 32;
const SUM_STREAM: u64 = 4 << 32;
const EVENING_STREAM: u64 = 5 << 32;
const GROWTH_STREAM: u64 = 6 << 32;
const INDEX_STREAM: u64 = 7 << 32;
const CARD_STREAM: u64 = 8 << 32;
const TRIP_STREAM: u64 = 9 << 32;
const TO_CARD_STREAM: u64 = 10 << 32;
const FROM_CARD_STREAM: u64 = 11 << 32;
const RESCUE_STREAM: u64 = 12 << 32;
const SALVAGE_STREAM: u64 = 13 << 32;
const RESCUE_LIST_STREAM: u64 = 14 << 32;
const VALVE_STREAM: u64 = 15 << 32;
const WALK_STREAM: u64 = 16 << 32;
const SITTING_STREAM: u64 = 17 << 32;

/// A program that takes scripts, and what is expected of it.
struct Taker<'a> {
    program: &'a Program,
    expected: fn(&[u8]) -> String,
    /// How many lines each item of a script is answered with.
    line_counts: fn(&[Item]) -> Vec<usize>,
}

/// A program that answers a whole input, and what is expected of it.
struct Subject<'a> {
    /// What its input is, in words.
    input: &'a str,
    program: &'a Program,
    expected: fn(&[u8]) -> String,
    /// The input in pieces, of which a smaller one may lack some.
    pieces: fn(&[u8]) -> Vec<Item>,
}

fn main() -> ExitCode {
    let Some(options) = Options::from(std::env::args().skip(1)) else {
        eprintln!("{USAGE}");
        return ExitCode::from(2);
    };
    let started: Result<(), String> = options.programs().iter().try_for_each(|one| one.starts());
    if let Err(trouble) = started {
        eprintln!("{trouble}");
        return ExitCode::from(2);
    }
    let begun = Instant::now();
    let mut tally = Tally::default();
    let Ok(sent) = compare_all(&options, &mut tally) else {
        return ExitCode::FAILURE;
    };
    print!("{}", tally.table());
    let (scripts, others) = (sent.scripts, sent.others());
    let seconds = begun.elapsed().as_secs_f64();
    println!("{scripts} scripts, {others} took {seconds:.1} s");
    let missing = tally.missing();
    if !missing.is_empty() {
        println!("codes that never occurred: {missing:?}");
        return ExitCode::FAILURE;
    }
    let (answers, seed) = (grouped(sent.answers), options.seed);
    println!("compared {answers} answers, {others}, seed {seed}: no difference");
    ExitCode::SUCCESS
}

fn compare_all(options: &Options, tally: &mut Tally) -> Result<Sent, Differs> {
    let mut sent = compare_scripts(options, tally)?;
    sent.lists = compare_lists(options)?;
    sent.inputs = compare_typed_lists(options)?;
    sent.inputs += compare_cards(options)? + compare_damaged_lists(options)?;
    sent.sums = compare_sums(options)?;
    compare_evenings(options, tally, &mut sent)?;
    compare_index_scripts(options, tally, &mut sent)?;
    compare_growths(options, tally, &mut sent)?;
    compare_card_scripts(options, tally, &mut sent)?;
    compare_trips(options, tally, &mut sent)?;
    compare_rescue_scripts(options, tally, &mut sent)?;
    compare_salvages(options, tally, &mut sent)?;
    compare_valve_scripts(options, tally, &mut sent)?;
    compare_walks(options, tally, &mut sent)?;
    compare_sittings(options, tally, &mut sent)?;
    Ok(sent)
}

fn replay_taker(options: &Options) -> Taker<'_> {
    Taker {
        program: &options.replay,
        expected: replay::transcript,
        line_counts: |items| {
            let mut replay = Replay::default();
            line_counts(items, |left| replay.item(left))
        },
    }
}

fn lists_taker(options: &Options) -> Taker<'_> {
    Taker {
        program: &options.lists_replay,
        expected: lists_replay::transcript,
        line_counts: |items| line_counts(items, lists_replay::item),
    }
}

fn valve_taker(options: &Options) -> Taker<'_> {
    Taker {
        program: &options.valve_replay,
        expected: valve_replay::transcript,
        line_counts: |items| {
            let mut replay = ValveReplay::default();
            line_counts(items, |left| replay.item(left))
        },
    }
}

fn seats_taker(options: &Options) -> Taker<'_> {
    Taker {
        program: &options.seats_replay,
        expected: seats_replay::transcript,
        line_counts: |items| {
            let mut replay = SeatsReplay::default();
            line_counts(items, |left| replay.item(left))
        },
    }
}

/// By what takes an item off a script. A bad item is answered with one line.
fn line_counts(items: &[Item], mut take: impl FnMut(&mut Script) -> Option<String>) -> Vec<usize> {
    let answers = items.iter().map(|item| take(&mut Script::new(item)));
    let counts = answers.map(|answer| answer.map_or(1, |text| text.lines().count()));
    counts.collect()
}

/// Compares the fixed scripts, then random ones until there are answers enough.
fn compare_scripts(options: &Options, tally: &mut Tally) -> Result<Sent, Differs> {
    let mut sent = Sent::default();
    let endless = (0..).map(|index| random::script(Rng::stream(options.seed, index)));
    let fixed = fixed::scripts();
    let always = fixed.len() as u64;
    for script in fixed.into_iter().chain(endless) {
        if sent.scripts >= always && sent.answers >= options.answers {
            break;
        }
        compare_script(&replay_taker(options), &script, tally, &mut sent)?;
    }
    Ok(sent)
}

/// What the program answered, where that is what the reference answers.
fn compare_script(
    taker: &Taker,
    items: &[Item],
    tally: &mut Tally,
    sent: &mut Sent,
) -> Result<String, Differs> {
    let script = items.concat();
    let expected = (taker.expected)(&script);
    tally.add(&expected);
    sent.answers += expected.lines().count() as u64;
    sent.scripts += 1;
    answered(taker.program, &script, &expected).map_err(|difference| {
        println!("a script differs:");
        let last = item_of_line(&(taker.line_counts)(items), difference.line);
        report(taker.program, taker.expected, items, last)
    })
}

fn compare_each(
    taker: &Taker,
    scripts: Vec<Vec<Item>>,
    tally: &mut Tally,
    sent: &mut Sent,
) -> Result<(), Differs> {
    for script in scripts {
        compare_script(taker, &script, tally, sent)?;
    }
    Ok(())
}

/// Fixed and random lists split over evenings. Each is compared with the reference, like
/// any script, and then the program's answers with each other.
fn compare_evenings(options: &Options, tally: &mut Tally, sent: &mut Sent) -> Result<(), Differs> {
    let mut all = fixed_evenings::evenings();
    all.extend(many_evenings(options));
    sent.pairs = all.iter().filter(|one| one.parts.len() == 2).count();
    sent.triples = all.iter().filter(|one| one.parts.len() == 3).count();
    for batch in batches(all, Evenings::script_bytes) {
        let items: Vec<Item> = batch.iter().flat_map(Evenings::items).collect();
        let answers = compare_script(&replay_taker(options), &items, tally, sent)?;
        let mut lines = answers.lines();
        let differs = |one: &Evenings| disagreement(one, &mut lines).is_some();
        all_agree(&batch, differs, |one| report_evenings(&options.replay, one))?;
    }
    Ok(())
}

/// Random ones: pairs, then half as many triples.
fn many_evenings(options: &Options) -> Vec<Evenings> {
    let pairs = options.evenings as u64;
    let all = (0..pairs + pairs / 2).map(|index| {
        let rng = Rng::stream(options.seed, EVENING_STREAM + index);
        random_evenings::evenings(rng, if index < pairs { 2 } else { 3 })
    });
    all.collect()
}

/// Whether programs' own answers agree; the first of a batch of which they do not is reported.
fn all_agree<T>(
    batch: &[T],
    mut differs: impl FnMut(&T) -> bool,
    report: impl FnOnce(&T) -> Differs,
) -> Result<(), Differs> {
    let differing = batch.iter().find(|one| differs(one));
    differing.map_or(Ok(()), |one| Err(report(one)))
}

/// Fixed items about the index of a list, then random ones.
fn compare_index_scripts(
    options: &Options,
    tally: &mut Tally,
    sent: &mut Sent,
) -> Result<(), Differs> {
    let mut rng = Rng::stream(options.seed, INDEX_STREAM);
    let mut scripts = fixed_index::scripts();
    scripts.extend(random_index::scripts(&mut rng, options.indexes));
    compare_each(&lists_taker(options), scripts, tally, sent)
}

/// Fixed and random lists that grow. What both replay programs answer is compared with the
/// reference, like any script, and then with each other.
fn compare_growths(options: &Options, tally: &mut Tally, sent: &mut Sent) -> Result<(), Differs> {
    let mut rng = Rng::stream(options.seed, GROWTH_STREAM);
    let mut all = fixed_growths::growths();
    all.extend((0..options.indexes).map(|_| random_index::growth(&mut rng)));
    sent.growths = all.len();
    for batch in batches(all, Growth::script_bytes) {
        let items: Vec<Item> = batch.iter().flat_map(Growth::index_items).collect();
        let lists = compare_script(&lists_taker(options), &items, tally, sent)?;
        let items: Vec<Item> = batch.iter().flat_map(Growth::shown_items).collect();
        let replay = compare_script(&replay_taker(options), &items, tally, sent)?;
        let (mut lists, mut replay) = (lists.lines(), replay.lines());
        let differs = |one: &Growth| growths::disagreement(one, &mut lists, &mut replay).is_some();
        all_agree(&batch, differs, |one| report_growth(options, one))?;
    }
    Ok(())
}

/// Fixed items about lists on a card, then random ones.
fn compare_card_scripts(
    options: &Options,
    tally: &mut Tally,
    sent: &mut Sent,
) -> Result<(), Differs> {
    let mut rng = Rng::stream(options.seed, CARD_STREAM);
    let mut scripts = fixed_cards::scripts();
    scripts.extend(random_cards::scripts(&mut rng, options.cards));
    compare_each(&lists_taker(options), scripts, tally, sent)
}

/// Fixed and random lists that go to a card or come off it, and come back by what the
/// program made of them. Both ways are compared with the reference, like any script, and
/// then the list with what comes back.
fn compare_trips(options: &Options, tally: &mut Tally, sent: &mut Sent) -> Result<(), Differs> {
    let mut rng = Rng::stream(options.seed, TRIP_STREAM);
    let mut all = fixed_cards::trips();
    all.extend((0..options.cards).map(|_| random_cards::trip(&mut rng)));
    sent.trips = all.len();
    let taker = lists_taker(options);
    for batch in batches(all, Trip::script_bytes) {
        let items: Vec<Item> = batch.iter().map(Trip::out).collect();
        let out = compare_script(&taker, &items, tally, sent)?;
        let back = compare_script(&taker, &trips::backs(&batch, &out), tally, sent)?;
        let (mut out, mut back) = (out.lines(), back.lines());
        let differs = |one: &Trip| trips::disagreement(one, &mut out, &mut back).is_some();
        all_agree(&batch, differs, |one| report_trip(taker.program, one))?;
    }
    Ok(())
}

/// Fixed items about the rescue of damaged lists, then random ones.
fn compare_rescue_scripts(
    options: &Options,
    tally: &mut Tally,
    sent: &mut Sent,
) -> Result<(), Differs> {
    let mut rng = Rng::stream(options.seed, RESCUE_STREAM);
    let mut scripts = fixed_rescues::scripts();
    scripts.extend(random_rescues::scripts(&mut rng, options.rescues));
    compare_each(&lists_taker(options), scripts, tally, sent)
}

/// Fixed and random damaged lists that are rescued and run; what the program kept of them is
/// rescued again and run too. All answers are compared with the reference, like those of any
/// script, and then with each other.
fn compare_salvages(options: &Options, tally: &mut Tally, sent: &mut Sent) -> Result<(), Differs> {
    let mut rng = Rng::stream(options.seed, SALVAGE_STREAM);
    let mut all = fixed_rescues::salvages();
    all.extend((0..options.rescues).map(|_| random_rescues::salvage(&mut rng)));
    sent.salvages = all.len();
    let taker = lists_taker(options);
    for batch in batches(all, Salvage::script_bytes) {
        let items: Vec<Item> = batch.iter().map(Salvage::item).collect();
        let rescues = compare_script(&taker, &items, tally, sent)?;
        let kept = salvages::kept_lists(&batch, &rescues);
        let again = compare_script(&taker, &salvages::again(&kept), tally, sent)?;
        let items = salvages::runs(&batch, &kept);
        let runs = compare_script(&replay_taker(options), &items, tally, sent)?;
        let mut answers = Answers::new(&rescues, &again, &runs);
        let differs = |one: &Salvage| salvages::disagreement(one, &mut answers).is_some();
        all_agree(&batch, differs, |one| report_salvage(options, one))?;
    }
    Ok(())
}

/// Fixed items about the valve, then random ones.
fn compare_valve_scripts(
    options: &Options,
    tally: &mut Tally,
    sent: &mut Sent,
) -> Result<(), Differs> {
    let mut rng = Rng::stream(options.seed, VALVE_STREAM);
    let mut scripts = fixed_valve::scripts();
    scripts.extend(random_valve::scripts(&mut rng, options.valves));
    compare_each(&valve_taker(options), scripts, tally, sent)
}

/// Fixed and random walks of a valve. Each is compared with the reference, like any script,
/// and then the program's answers with each other.
fn compare_walks(options: &Options, tally: &mut Tally, sent: &mut Sent) -> Result<(), Differs> {
    let mut rng = Rng::stream(options.seed, WALK_STREAM);
    let mut all = fixed_valve::walks();
    all.extend((0..options.valves).map(|_| random_valve::walk(&mut rng)));
    sent.walks = all.len();
    let taker = valve_taker(options);
    for batch in batches(all, Walk::script_bytes) {
        let items: Vec<Item> = batch.iter().flat_map(Walk::items).collect();
        let answers = compare_script(&taker, &items, tally, sent)?;
        let mut lines = answers.lines();
        let differs = |one: &Walk| walks::disagreement(one, &mut lines).is_some();
        all_agree(&batch, differs, |one| report_walk(taker.program, one))?;
    }
    Ok(())
}

/// Fixed items of the four-seat bench; then fixed and random sittings there, and the commands
/// that were served, sent to the other replay program. What both answer is compared with the
/// reference, like any script, and then with each other.
fn compare_sittings(options: &Options, tally: &mut Tally, sent: &mut Sent) -> Result<(), Differs> {
    let taker = seats_taker(options);
    compare_each(&taker, fixed_seats::scripts(), tally, sent)?;
    let mut rng = Rng::stream(options.seed, SITTING_STREAM);
    let mut all = fixed_seats::sittings();
    all.extend((0..options.seats).map(|_| random_seats::sitting(&mut rng)));
    sent.sittings = all.len();
    for batch in batches(all, Sitting::script_bytes) {
        let items: Vec<Item> = batch.iter().flat_map(Sitting::items).collect();
        let seats = compare_script(&taker, &items, tally, sent)?;
        let carried = sittings::carried(&batch, &seats);
        let replay = compare_script(&replay_taker(options), &carried, tally, sent)?;
        let (mut seats, mut replay) = (seats.lines(), replay.lines());
        let differs =
            |one: &Sitting| sittings::disagreement(one, &mut seats, &mut replay).is_some();
        all_agree(&batch, differs, |one| report_sitting(options, one))?;
    }
    Ok(())
}

fn compare_lists(options: &Options) -> Result<usize, Differs> {
    let mut rng = Rng::stream(options.seed, LIST_STREAM);
    let mut lists = vec![
        Vec::new(),
        full_list(LONGEST_LIST),
        full_list(LONGEST_LIST + 1),
        fixed_dark::list(),
        fixed_range::list(),
    ];
    lists.extend((0..options.lists).map(|_| random::list(&mut rng)));
    let subject = Subject {
        input: "list",
        program: &options.list,
        expected: listing,
        pieces: commands,
    };
    compare_inputs(&subject, &lists)
}

/// The three programs for typed lists, both streams of each.
fn compare_typed_lists(options: &Options) -> Result<usize, Differs> {
    let texts = inputs::texts(&mut Rng::stream(options.seed, TEXT_STREAM), options.inputs);
    let raw_lists = inputs::raw_lists(&mut Rng::stream(options.seed, RAW_STREAM), options.inputs);
    let reading_text = [
        (
            &options.typed,
            (|text| typed(text).in_words()) as fn(&[u8]) -> String,
        ),
        (&options.assemble, |text| assembler(text).in_words()),
    ];
    let mut compared = 0;
    for (program, expected) in reading_text {
        let subject = Subject {
            input: "typed list",
            program,
            expected,
            pieces: lines,
        };
        compared += compare_inputs(&subject, &texts)?;
    }
    let subject = Subject {
        input: "raw list",
        program: &options.lister,
        expected: |raw| lister(raw).in_words(),
        pieces: commands,
    };
    Ok(compared + compare_inputs(&subject, &raw_lists)?)
}

/// Both programs for lists on a card, both streams of each.
fn compare_cards(options: &Options) -> Result<usize, Differs> {
    let mut rng = Rng::stream(options.seed, TO_CARD_STREAM);
    let mut raw_lists = fixed_cards::raw_inputs();
    raw_lists.extend(random_cards::raw_inputs(&mut rng, options.inputs));
    let storing = Subject {
        input: "raw list",
        program: &options.to_card,
        expected: |raw| to_card(raw).in_words(),
        pieces: commands,
    };
    let mut rng = Rng::stream(options.seed, FROM_CARD_STREAM);
    let mut stored_lists = fixed_cards::stored_inputs();
    stored_lists.extend(random_cards::stored_inputs(&mut rng, options.inputs));
    let reading = Subject {
        input: "stored list",
        program: &options.from_card,
        expected: |stored| from_card(stored).in_words(),
        pieces: numbers,
    };
    Ok(compare_inputs(&storing, &raw_lists)? + compare_inputs(&reading, &stored_lists)?)
}

/// The program for damaged lists, both streams of it.
fn compare_damaged_lists(options: &Options) -> Result<usize, Differs> {
    let mut rng = Rng::stream(options.seed, RESCUE_LIST_STREAM);
    let mut lists = fixed_rescues::inputs();
    lists.extend(random_rescues::inputs(&mut rng, options.inputs));
    let subject = Subject {
        input: "damaged list",
        program: &options.rescue_list,
        expected: |list| rescue_list(list).in_words(),
        pieces: bytes,
    };
    compare_inputs(&subject, &lists)
}

/// All sums in one input, a line for each.
fn compare_sums(options: &Options) -> Result<usize, Differs> {
    let sums = sums::sums(&mut Rng::stream(options.seed, SUM_STREAM), options.sums);
    let subject = Subject {
        input: "list of sums",
        program: &options.cases,
        expected: answers,
        pieces: lines,
    };
    compare_inputs(&subject, &[sums::input(&sums)])?;
    Ok(sums.len())
}

fn compare_inputs(subject: &Subject, inputs: &[Vec<u8>]) -> Result<usize, Differs> {
    for input in inputs {
        if answered(subject.program, input, &(subject.expected)(input)).is_err() {
            println!("a {} differs:", subject.input);
            let pieces = (subject.pieces)(input);
            return Err(report(
                subject.program,
                subject.expected,
                &pieces,
                pieces.len(),
            ));
        }
    }
    Ok(inputs.len())
}

/// As many whole flushes as fit, and zeros behind them.
fn full_list(length: usize) -> Vec<u8> {
    let mut list = [0x01, 0x5a, 0x00, 0x02].repeat(LONGEST_LIST / 4);
    list.resize(length, 0);
    list
}

/// Shrinks evenings of which the program's own answers disagree, and prints what is left.
fn report_evenings(program: &Program, evenings: &Evenings) -> Differs {
    println!("evenings differ from one evening with the whole list:");
    let show = |evenings: &Evenings| {
        let answers = program.answer(&evenings.items().concat()).ok()?;
        disagreement(evenings, &mut answers.lines())
    };
    let smallest = evenings.smallest(&mut |fewer| show(fewer).is_some());
    report_disagreement(&smallest.items(), show(&smallest), "of the one evening")
}

/// The same for a list that grows.
fn report_growth(options: &Options, growth: &Growth) -> Differs {
    println!("answers about a growing list differ, the items for both replay programs:");
    let show = |growth: &Growth| {
        let lists = options.lists_replay.answer(&growth.index_items().concat());
        let replay = options.replay.answer(&growth.shown_items().concat());
        growths::disagreement(growth, &mut lists.ok()?.lines(), &mut replay.ok()?.lines())
    };
    let smallest = growth.smallest(&mut |fewer| show(fewer).is_some());
    let items = [smallest.index_items(), smallest.shown_items()].concat();
    report_disagreement(&items, show(&smallest), "about the grown list")
}

/// The same for a list that does not come back as it was.
fn report_trip(program: &Program, trip: &Trip) -> Differs {
    println!("a list does not come back as it was, the items for both ways:");
    let both = |trip: &Trip| {
        let out = program.answer(&trip.out()).ok()?;
        Some((trips::backs(std::slice::from_ref(trip), &out), out))
    };
    let show = |trip: &Trip| {
        let (back, out) = both(trip)?;
        let back = program.answer(&back.concat()).ok()?;
        trips::disagreement(trip, &mut out.lines(), &mut back.lines())
    };
    let smallest = trip.smallest(&mut |fewer| show(fewer).is_some());
    let mut items = vec![smallest.out()];
    items.extend(both(&smallest).map_or(Vec::new(), |(back, _)| back));
    report_disagreement(&items, show(&smallest), "about the way back")
}

/// The same for a damaged list of which the answers do not fit together.
fn report_salvage(options: &Options, salvage: &Salvage) -> Differs {
    println!("answers about a damaged list differ, the items for both replay programs:");
    let all = |salvage: &Salvage| {
        let one = std::slice::from_ref(salvage);
        let rescues = options.lists_replay.answer(&salvage.item()).ok()?;
        let kept = salvages::kept_lists(one, &rescues);
        Some((salvages::again(&kept), salvages::runs(one, &kept), rescues))
    };
    let show = |salvage: &Salvage| {
        let (again, runs, rescues) = all(salvage)?;
        let again = options.lists_replay.answer(&again.concat()).ok()?;
        let runs = options.replay.answer(&runs.concat()).ok()?;
        salvages::disagreement(salvage, &mut Answers::new(&rescues, &again, &runs))
    };
    let smallest = salvage.smallest(&mut |fewer| show(fewer).is_some());
    let mut items = vec![smallest.item()];
    items.extend(all(&smallest).map_or(Vec::new(), |(again, runs, _)| [again, runs].concat()));
    report_disagreement(&items, show(&smallest), "about the damaged list")
}

/// The same for a walk of a valve.
fn report_walk(program: &Program, walk: &Walk) -> Differs {
    println!("answers about a valve differ:");
    let show = |walk: &Walk| {
        let answers = program.answer(&walk.items().concat()).ok()?;
        walks::disagreement(walk, &mut answers.lines())
    };
    let smallest = walk.smallest(&mut |fewer| show(fewer).is_some());
    report_disagreement(&smallest.items(), show(&smallest), "about the valve")
}

/// The same for a sitting at the four-seat bench.
fn report_sitting(options: &Options, sitting: &Sitting) -> Differs {
    println!("answers about a sitting differ, the items for both replay programs:");
    let both = |sitting: &Sitting| {
        let seats = options
            .seats_replay
            .answer(&sitting.items().concat())
            .ok()?;
        let carried = sittings::carried(std::slice::from_ref(sitting), &seats);
        Some((seats, carried))
    };
    let show = |sitting: &Sitting| {
        let (seats, carried) = both(sitting)?;
        let replay = options.replay.answer(&carried.concat()).ok()?;
        sittings::disagreement(sitting, &mut seats.lines(), &mut replay.lines())
    };
    let smallest = sitting.smallest(&mut |fewer| show(fewer).is_some());
    let mut items = smallest.items();
    items.extend(both(&smallest).map_or(Vec::new(), |(_, carried)| carried));
    report_disagreement(&items, show(&smallest), "about the sitting")
}

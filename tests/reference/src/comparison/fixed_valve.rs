//! Fixed items about the gas valve: frames of every length, with each bit and each word broken,
//! with every set of faults at once, with other patterns, identifiers, sums and codes, on valves
//! of every sort; rooms; the scripts that end badly; and walks through all states.

use super::fixed::{about_the_longest, batches};
use super::items::{fresh_valve, valve, valve_frame, Item};
use super::valve_frames::{
    arming, bytes, firing, mended, summed, with, Before, Words, AT_SUM, BEFORE, FLAGS, IDENTIFIER,
    RIGHT, WORDS,
};
use super::walks::{Walk, ROOM};

/// Codes about the right one: its neighbours, its bytes and its digits exchanged or read
/// otherwise, and numbers at their ends.
const CODES: [u16; 16] = [
    RIGHT,
    RIGHT - 1,
    RIGHT + 1,
    0x1018,
    0x8101,
    0x0810,
    0x1800,
    0x0010,
    0x6160,
    1810,
    0xe7ef,
    0,
    1,
    0x7fff,
    0x8000,
    0xffff,
];

/// What becomes of a word that is broken.
const BREAKS: [fn(u16) -> u16; 6] = [
    |word| word.wrapping_add(1),
    |word| word.wrapping_sub(1),
    |word| word ^ 0x0100,
    |word| word ^ 0x8000,
    |word| if word == 0xffff { 0 } else { 0xffff },
    |word| word.rotate_left(8) ^ 0x2000,
];

/// Items that go into one script, one behind another.
type Part = Vec<Item>;

/// All fixed scripts about the valve, but for those of walks.
pub fn scripts() -> Vec<Vec<Item>> {
    let mut parts = lengths();
    parts.extend(every_bit());
    parts.extend(every_word());
    parts.extend(two_unused_words());
    parts.extend(faults_at_once());
    parts.extend(patterns());
    parts.extend(flags_and_codes());
    parts.extend(identifiers());
    parts.extend(sums());
    parts.extend(turned());
    parts.extend(rooms());
    let batches = batches(parts, |part| part.iter().map(Vec::len).sum());
    let mut scripts: Vec<Vec<Item>> = batches.into_iter().map(|it| it.concat()).collect();
    scripts.push(Vec::new());
    scripts.extend(bad_scripts());
    let wide = valve(&bytes(&arming(0)));
    scripts.extend(about_the_longest(wide, fresh_valve()));
    scripts
}

/// The frame read, and carried out on a valve of each of these sorts.
fn ways(frame: &[u8], sorts: &[Before]) -> Part {
    let mut items = vec![valve_frame(ROOM, frame)];
    for before in sorts {
        items.extend(before.items());
        items.push(valve(frame));
    }
    items
}

fn each_way(words: &Words) -> Part {
    ways(&bytes(words), &BEFORE)
}

/// A frame that arms, one that fires, and one that would fire with another code.
fn orders() -> [Words; 3] {
    [arming(0), firing(0, RIGHT), firing(0, RIGHT + 1)]
}

/// From none to all that an item can carry: frames again and again, and zeros.
fn lengths() -> Vec<Part> {
    let mut frames: Vec<Vec<u8>> = orders().map(|words| bytes(&words).repeat(4)).to_vec();
    frames.push(vec![0; 256]);
    let mut parts = Vec::new();
    for length in (0..=130).chain([191, 192, 193, 254, 255]) {
        let cut = frames.iter().map(|frame| &frame[..length]);
        parts.extend(cut.map(|frame| ways(frame, &[Before::Armed])));
    }
    parts
}

/// Each bit of a frame turned, with the sum that it had and with a right one.
fn every_bit() -> Vec<Part> {
    let mut parts = Vec::new();
    for words in [arming(2), firing(1, RIGHT)] {
        for place in 0..WORDS {
            for bit in 0..16 {
                let broken = with(&words, place, words[place] ^ 1 << bit);
                let both = [broken, mended(broken)];
                parts.push(both.map(|it| valve_frame(ROOM, &bytes(&it))).to_vec());
            }
        }
    }
    parts
}

/// Each word broken, with the sum that it had and with a right one.
fn every_word() -> Vec<Part> {
    let mut parts = Vec::new();
    for words in [arming(0), firing(0, RIGHT)] {
        for place in 0..WORDS {
            for broken in BREAKS {
                let broken = with(&words, place, broken(words[place]));
                parts.extend([broken, mended(broken)].map(|it| each_way(&it)));
            }
        }
    }
    parts
}

/// Two words that are not used, and that come to nothing in a sum.
fn two_unused_words() -> Vec<Part> {
    let mut parts = Vec::new();
    for words in orders() {
        for [first, second] in [[6, 7], [6, 31], [18, 19], [30, 31]] {
            for [a, b] in [[1, 0xffff], [0x8000, 0x8000], [0x1234, 0x1234]] {
                parts.push(each_way(&with(&with(&words, first, a), second, b)));
            }
        }
    }
    parts
}

/// Every set of faults: of the length, the sum, the identifier, a word that is not used, and
/// the pattern; with each order and on a valve of each sort, so that every two refusals are
/// due at once.
fn faults_at_once() -> Vec<Part> {
    let mut parts = Vec::new();
    for words in orders() {
        for faults in 0..16 {
            let frame = bytes(&faulty(words, faults));
            parts.push(ways(&frame, &BEFORE));
            for length in [0, 12, 62, 63, 65, 66] {
                let longer = [&frame[..], &[0; 2]].concat();
                parts.push(ways(&longer[..length], &BEFORE));
            }
        }
    }
    parts
}

/// The words with those of four faults whose bits are set.
fn faulty(mut words: Words, faults: u16) -> Words {
    words[0] ^= faults & 1;
    words[WORDS - 1] ^= faults >> 1 & 1;
    words[2] ^= (faults >> 2 & 1) << 2;
    let mut words = mended(words);
    words[AT_SUM] ^= faults >> 3 & 1;
    words
}

/// Words 1 to 4 as both patterns have them and not, in every mixture.
fn patterns() -> Vec<Part> {
    let mut parts = Vec::new();
    for update in [0, 1, 0xffff] {
        for mask in [0, 1, 2] {
            for fire in [0, 1, 0xffff] {
                for code in [0, 1, RIGHT] {
                    let words = summed([IDENTIFIER, update, mask, fire, code]);
                    parts.push(each_way(&words));
                }
            }
        }
    }
    parts
}

/// Both flags with each order and each code; and each bit of the code turned.
fn flags_and_codes() -> Vec<Part> {
    let mut parts = Vec::new();
    for flags in FLAGS {
        parts.push(each_way(&arming(flags)));
        parts.extend(CODES.map(|code| each_way(&firing(flags, code))));
    }
    let turned = (0..16).map(|bit| firing(0, RIGHT ^ 1 << bit));
    parts.extend(turned.map(|words| each_way(&words)));
    parts
}

/// Other identifiers, with each flags and a right sum.
fn identifiers() -> Vec<Part> {
    let others = [0, 0x000d, 0x000f, 0x0e00, 0x2000, 0x200e, 0x3ff1, 0x3fff];
    let mut parts = Vec::new();
    for flags in FLAGS {
        for words in [arming(flags), firing(flags, RIGHT)] {
            let other = others.map(|it| mended(with(&words, 0, flags << 14 | it)));
            parts.extend(other.map(|words| each_way(&words)));
        }
    }
    parts
}

/// Frames whose sums wrap once and twice, or come to a number at its ends, each with the right
/// sum and with others.
fn sums() -> Vec<Part> {
    let mut parts = Vec::new();
    for flags in FLAGS {
        let first = flags << 14 | IDENTIFIER;
        // The other words of a frame that fires come to one less than the code.
        let codes = [0u16, 1, 2, 0x8000, 0xffff].map(|sum| sum.wrapping_sub(first).wrapping_add(1));
        let mut frames = vec![arming(flags), firing(flags, RIGHT), firing(flags, 0xffff)];
        frames.extend(codes.map(|code| firing(flags, code)));
        for words in frames {
            let other = other_sums(&words).map(|sum| with(&words, AT_SUM, sum));
            let with_more = with(&words, WORDS - 1, 1);
            for words in [&[words, with_more], &other[..]].concat() {
                parts.push(ways(&bytes(&words), &[Before::Armed]));
            }
        }
    }
    parts
}

/// Sums about the right one, and what other sums come to: of too few words or too many, of
/// bytes, without or with what goes beyond 16 bits.
fn other_sums(words: &Words) -> [u16; 17] {
    let right = words[AT_SUM];
    let wrapped = |words: &[u16]| words.iter().fold(0, |sum: u16, it| sum.wrapping_add(*it));
    let whole: u32 = words[..AT_SUM].iter().map(|word| u32::from(*word)).sum();
    let of_bytes = words[..AT_SUM]
        .iter()
        .map(|word| (word >> 8) + (word & 0xff));
    [
        right.wrapping_add(1),
        right.wrapping_sub(1),
        right ^ 0x0100,
        right ^ 0x8000,
        right.swap_bytes(),
        !right,
        right.wrapping_neg(),
        0,
        0xffff,
        whole.min(0xffff) as u16,
        (whole % 0xffff) as u16,
        right.wrapping_add((whole >> 16) as u16),
        wrapped(&words[1..AT_SUM]),
        wrapped(&words[..AT_SUM - 1]),
        right.wrapping_mul(2),
        words[..AT_SUM].iter().fold(0, |all, word| all ^ word),
        of_bytes.sum(),
    ]
}

/// Frames whose bytes or words stand in another order, with the sum that they had and with a
/// right one.
fn turned() -> Vec<Part> {
    let mut parts = Vec::new();
    for words in orders() {
        let swapped = words.map(u16::swap_bytes);
        let (mut reversed, mut later, mut pairs) = (words, words, words);
        reversed.reverse();
        later.rotate_right(1);
        pairs.chunks_exact_mut(2).for_each(|pair| pair.swap(0, 1));
        for words in [swapped, reversed, later, pairs] {
            parts.extend([words, mended(words)].map(|it| each_way(&it)));
        }
    }
    parts
}

/// Rooms about the 64 bytes that a frame takes, for frames that are read and for one that is
/// not.
fn rooms() -> Vec<Part> {
    let frames = [arming(1), firing(2, 7), faulty(arming(0), 4)];
    let rooms = (0..=130).chain([191, 192, 254, 255]);
    let each = rooms.map(|room| {
        frames
            .map(|words| valve_frame(room, &bytes(&words)))
            .to_vec()
    });
    each.collect()
}

/// Both items cut off at every byte, and first bytes that start no item, each behind an item
/// that is answered.
fn bad_scripts() -> Vec<Vec<Item>> {
    let frame = bytes(&arming(0));
    let good = valve(&frame);
    let mut ends = Vec::new();
    for item in [good.clone(), valve_frame(ROOM, &frame)] {
        ends.extend((1..item.len()).map(|length| vec![item[..length].to_vec()]));
    }
    for first in [0x03, 0x04, 0x0e, 0x10, 0x40, 0x7f, 0x80, 0x81, 0x82, 0xff] {
        ends.push(vec![vec![first], good.clone()]);
        ends.push(vec![[&[first], &good[1..]].concat()]);
    }
    let behind_good = ends
        .into_iter()
        .map(|end| [vec![good.clone(), fresh_valve()], end].concat());
    behind_good.collect()
}

/// A frame for each refusal that does not ask for the state.
fn refused() -> [Vec<u8>; 5] {
    let sum = with(&firing(0, RIGHT), AT_SUM, 0);
    [
        bytes(&firing(0, RIGHT))[..63].to_vec(),
        bytes(&sum),
        bytes(&mended(with(&firing(0, RIGHT), 0, 0x000f))),
        bytes(&with(&firing(0, RIGHT), 6, 1)),
        bytes(&summed([IDENTIFIER, 0xffff, 1, 0xffff, RIGHT])),
    ]
}

/// Every four steps of five sorts; both flags of either order with both of the other; every
/// code; and each refusal before, between and behind all of them.
pub fn walks() -> Vec<Walk> {
    let [arm, fire, other] = orders().map(|words| valve(&bytes(&words)));
    let bad = valve(&refused()[1]);
    let sorts = [fresh_valve(), arm.clone(), fire.clone(), other.clone(), bad];
    let count = sorts.len();
    let mut walks: Vec<Vec<Item>> = (0..count.pow(4))
        .map(|choice| {
            let chosen = (0..4).map(|place| choice / count.pow(place) % count);
            chosen.map(|sort| sorts[sort].clone()).collect()
        })
        .collect();
    for flags in FLAGS {
        let first = arming(flags);
        let frames = FLAGS.map(|flags| [first, firing(flags, RIGHT), first, first]);
        walks.extend(frames.map(|words| words.map(|it| valve(&bytes(&it))).to_vec()));
    }
    for code in CODES {
        let coded = valve(&bytes(&firing(0, code)));
        let steps = [&coded, &arm, &coded, &fire, &coded, &arm, &coded];
        walks.push(steps.map(Item::clone).to_vec());
    }
    for frame in refused() {
        let bad = valve(&frame);
        let steps = [&arm, &other, &fire, &fire, &arm, &fresh_valve(), &fire].map(Item::clone);
        walks.push(steps.map(|step| [bad.clone(), step]).concat());
    }
    walks.into_iter().map(|steps| Walk { steps }).collect()
}

//! The check on a list of modules: lists of cards, and lists beside them that no card of 8 or 13 digits has.
use crate::{
    gs1::{Shown, framed, list, shown},
    rng::Rng,
    writer::Script,
};
use tetanes_core::host::{Desc, hex};

/// A card of 8 digits and one of 13: the number and the digit count.
const CARDS: [(u64, usize); 2] = [(96_385_074, 8), (4_901_234_567_894, 13)];

/// 157 with the reader and one chip, so that its files are short.
fn datach() -> Desc {
    Desc { mapper: 157, sub: 0, nes2: 1, mir: 0, access: 4, sizes: [262_144, 0, 8192, 0, 1024, 0, 0], rule: 0 }
}

pub fn all(script: &mut Script) {
    script.about("decode: the worked values without a board");
    script.fit(&Desc { mapper: 18, ..datach() });
    worked(script);
    script.line("counts");
    beside_the_reader(script);
    between_events(script);
    script.about("decode: the worked values with a board");
    worked(script);
    digit_counts(script);
    every_digit(script);
    flips(script);
    other_bytes(script);
    other_lengths(script);
    other_sets(script);
    other_digits(script);
    hexadecimal(script);
    script.end();
}

fn worked(script: &mut Script) {
    for (number, digits) in [
        (96_385_074, 8),
        (96_385_070, 8),
        (4_901_234, 7),
        (490_123_456_789, 12),
        (49_012_345_678_945, 14),
        (4_006_381_333_930, 13),
        (36_000_291_452, 13),
        (490_123, 6),
    ] {
        script.decode(&list(number, digits));
    }
    let mut flipped = list(96_385_074, 8);
    flipped[33] ^= 8;
    script.decode(&flipped);
    script.line("decode");
}

/// The card and what decodes to it, line by line.
fn beside_the_reader(script: &mut Script) {
    script.about("decode: lists beside the same cards in a reader");
    script.fit(&datach());
    for (number, digits) in [
        (96_385_074, 8),
        (96_385_079, 8),
        (963_850, 6),
        (9_638_507, 7),
        (963_850_749, 9),
        (4_901_234_567_894, 13),
        (4_901_234_567_899, 13),
        (1_234_567_890, 13),
        (12_345_678_901_234_567_890, 20),
    ] {
        script.card(number, digits);
        script.decode(&list(number, digits as usize));
        script.insert();
        script.line("bars");
        script.decode(&list(number, digits as usize));
    }
}

/// No event: the events before it have run, as many as make a session and one more or less; none of it is counted.
fn between_events(script: &mut Script) {
    script.about("decode between events");
    script.fit(&datach());
    for (i, events) in [1, 2, 63, 64, 65, 128].into_iter().enumerate() {
        let (number, digits) = CARDS[i % 2];
        for _ in 1..events {
            script.clocks(500);
        }
        script.card(number, digits as u32);
        script.decode(&list(number, digits));
        script.insert();
        script.decode(&list(number, digits)[1..]);
        script.line("module");
    }
    script.line("counts");
    script.line("decode 08");
    script.line("counts");
    script.line("stop");
    script.decode(&list(CARDS[0].0, CARDS[0].1));
    script.line("bars");
    script.end();
}

/// Every digit count, with no zero before the number and with zeros.
fn digit_counts(script: &mut Script) {
    script.about("decode: cards of 1 to 20 digits");
    for digits in 1..=20 {
        let number = 12_345_678_901_234_567_890 / 10_u64.pow(20 - digits);
        script.decode(&list(number, digits as usize));
        script.decode(&list(number % 10_000, digits as usize));
    }
}

/// Every digit in every place of cards of 8 and 13 digits, and so every leading digit.
fn every_digit(script: &mut Script) {
    script.about("decode: every digit in every place");
    for first in 0..10 {
        for digits in [8, 13] {
            let number = (0..digits).fold(0, |number, place| 10 * number + (first + 3 * place) % 10);
            script.decode(&list(number, digits as usize));
        }
        script.decode(&list(1_000_000_000_000 * first + 234_567_890_123, 13));
    }
}

/// Light for dark, or dark for light, at each place of a list.
fn flips(script: &mut Script) {
    script.about("decode: each module flipped");
    for (number, digits) in CARDS {
        let modules = list(number, digits);
        for at in 0..modules.len() {
            let mut flipped = modules.clone();
            flipped[at] ^= 8;
            script.decode(&flipped);
        }
    }
}

/// Bytes that are neither 0 nor 8, and lists that a reading of other numbers, or from the other end, would take.
fn other_bytes(script: &mut Script) {
    script.about("decode: other bytes, lists exchanged and reversed");
    for (number, digits) in CARDS {
        let modules = list(number, digits);
        let mut put = |at: usize, byte: u8| {
            let mut other = modules.clone();
            other[at] = byte;
            script.decode(&other);
        };
        // 1 for 0, 9 for 8: in zones, guards and digits
        for at in (0..modules.len()).step_by(11).chain([33, 34, 35, modules.len() - 33, modules.len() - 1]) {
            put(at, modules[at] + 1);
        }
        for byte in [0x10, 0x18, 0x80, 0x88, 0x07, 0xF8, 0xFF] {
            put(40, byte);
        }
        let changes: [fn(u8) -> u8; 4] =
            [|module| module ^ 8, |module| module + 1, |module| module / 8, |module| 16 * module];
        for change in changes {
            script.decode(&modules.iter().copied().map(change).collect::<Vec<u8>>());
        }
        let mut reversed: Vec<u8> = modules.into_iter().rev().collect();
        script.decode(&reversed);
        // the zones are 33 and 32 again
        reversed.rotate_right(1);
        script.decode(&reversed);
    }
}

/// A list shorter or longer by an entry or more, two cards joined, and lists up to the longest line.
fn other_lengths(script: &mut Script) {
    script.about("decode: other lengths");
    let lists = CARDS.map(|(number, digits)| list(number, digits));
    let [eight, thirteen] = [&lists[0][..], &lists[1]];
    for modules in [eight, thirteen] {
        let last = modules.len() - 1;
        for part in [&modules[..last], &modules[1..], &modules[..last - 31], &modules[33..], &modules[33..last - 31]] {
            script.decode(part);
        }
        for more in [0, 8, 1] {
            script.decode(&[modules, &[more]].concat());
            script.decode(&[&[more][..], modules].concat());
        }
    }
    for parts in [[eight, eight], [eight, thirteen], [thirteen, thirteen]] {
        script.decode(&parts.concat());
    }
    for byte in [0, 8] {
        let light_or_dark = [byte; 28];
        for before in [0, 14, 28] {
            script.decode(&[&light_or_dark[..before], eight, &light_or_dark[before..]].concat());
        }
        for length in [1, 132, 160] {
            script.decode(&vec![byte; length]);
        }
    }
    for part in [&thirteen[..132], &thirteen[28..], &thirteen[14..146]] {
        script.decode(part);
    }
    for length in [161, 200, 256 + 132, 2000, 2044] {
        script.decode(&eight.iter().copied().cycle().take(length).collect::<Vec<u8>>());
    }
}

/// The left digits of a card in every row of sets, of which ten are a leading digit's and one is the card's own; then each
/// digit in sets that its place never has.
fn other_sets(script: &mut Script) {
    script.about("decode: left digits in every row of sets");
    let [left, right] = shown(CARDS[1].0, CARDS[1].1);
    for row in 0..64 {
        let set = |place: usize| if row >> place & 1 == 0 { 'A' } else { 'B' };
        let left: Vec<Shown> = left.iter().enumerate().map(|(place, (digit, _))| (*digit, set(place))).collect();
        script.decode(&framed(&left, &right));
    }
    script.about("decode: a digit in a set that its place never has");
    for (number, digits) in CARDS {
        let sides = shown(number, digits);
        for (side, place) in (0..digits / 2).flat_map(|place| [(0, place), (1, place)]) {
            let sets = match (side, digits) {
                (0, 8) => &['B', 'C'][..],
                (0, _) => &['C'],
                _ => &['A', 'B'],
            };
            for set in sets {
                let mut sides = sides.clone();
                sides[side][place].1 = *set;
                script.decode(&framed(&sides[0], &sides[1]));
            }
        }
    }
}

/// Every wrong check digit, and every other digit changed with the check digit kept.
fn other_digits(script: &mut Script) {
    script.about("decode: wrong check digits");
    for (number, digits) in CARDS {
        let sides = shown(number, digits);
        let last = digits / 2 - 1;
        for (side, place) in (0..=last).flat_map(|place| [(0, place), (1, place)]) {
            let changes = if (side, place) == (1, last) { 1..10 } else { 1..2 };
            for change in changes {
                let mut sides = sides.clone();
                let digit = &mut sides[side][place].0;
                *digit = (*digit + change) % 10;
                script.decode(&framed(&sides[0], &sides[1]));
            }
        }
    }
}

/// Digits of both cases, and what may stand around the word.
fn hexadecimal(script: &mut Script) {
    script.about("decode: hexadecimal digits of both cases");
    let mut modules = list(CARDS[0].0, CARDS[0].1);
    let whole = hex(&modules);
    for line in [format!("\tdecode\t {whole} \r"), format!("decode {whole}#{whole}"), format!("decode #{whole}")] {
        script.line(&line);
    }
    modules[131] = 0xAB;
    for text in [hex(&modules), "0a0b0c0d0e0f".into(), "ff".into()] {
        script.line(&format!("decode {text}"));
        script.line(&format!("decode {}", text.to_uppercase()));
    }
    script.line("decode aBcDeF");
    // the longest line: its digits are odd in number
    script.line(&format!("decode {}", "0".repeat(4089)));
}

/// The list of a random card, mostly of 8 or 13 digits; one in two is damaged.
pub fn any(rng: &mut Rng) -> Vec<u8> {
    let digits = if rng.once_in(5) { rng.within(1, 20) as usize } else { rng.pick(&[8, 13]) };
    let mut modules = list(rng.next() % 10_u64.pow(digits.min(19) as u32), digits);
    if rng.once_in(2) {
        damage(rng, &mut modules);
    }
    modules
}

/// A module flipped, a byte changed, the list cut or lengthened, or other bytes in its place.
fn damage(rng: &mut Rng, modules: &mut Vec<u8>) {
    let at = rng.below(modules.len() as u64) as usize;
    match rng.below(8) {
        0..3 => modules[at] ^= 8,
        3 => modules[at] = rng.byte(),
        4 => modules.truncate(at),
        5 => modules.insert(at, 8 * rng.bit()),
        6 => modules.resize(modules.len() + at, 8 * rng.bit()),
        _ => {
            let (length, wide) = (rng.pick(&[132, 160]), rng.once_in(2));
            *modules = (0..length).map(|_| if wide { rng.byte() } else { 8 * rng.bit() }).collect();
        }
    }
}

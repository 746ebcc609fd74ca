//! The check on a list of modules: every card of gs1_cards, the picture of a card, random cards in a reader, here and published, and
//! lists that no card has.
mod common;

use common::{Rng, published};
use molbitak::{Board, Cart, Refusal, decode};
use tetanes_core::{decode::decode as searched, mapper::bandai_fcg::BarcodeReader};

/// The lines that the program gs1_cards reads, and those that it writes: for a card the count of its modules, its check digit and its
/// bars.
const CARDS: &str = include_str!("../../crates/gs1_cards/stdin");
const BARS: &str = include_str!("../../crates/gs1_cards/stdout");

/// The picture that the program card draws of 96385074.
const PICTURE: &[u8] = include_bytes!("../../crates/card/stdout");

fn datach() -> Board {
    Board::load(&Cart { mapper_num: 157, ..Cart::default() }).unwrap()
}

/// What a reader shows of a card.
fn shown(board: &mut Board, number: u64, digits: u32) -> Vec<u8> {
    board.input(number, digits).unwrap();
    board.init().unwrap();
    board.modules().to_vec()
}

/// What the published reader shows of it.
fn published_list(number: u64, digits: u32) -> Vec<u8> {
    let mut reader = BarcodeReader::new();
    reader.input(number, digits);
    reader.init();
    reader.data.to_vec()
}

/// The digits decoded, or nothing; a refusal is never another.
fn answer(modules: &[u8]) -> Option<String> {
    decode(modules).map_err(|refusal| assert_eq!(refusal, Refusal::NoSuchCard)).ok().map(|digits| digits.to_string())
}

/// The digits of a card that its modules show: twelve of thirteen, seven of any other that has them.
fn digits_shown(number: u64, digits: usize) -> Option<String> {
    let card = format!("{number:0digits$}");
    card.get(..if card.len() == 13 { 12 } else { 7 }).map(str::to_owned)
}

/// Digits with their check digit: the weights are 3 and 1 in turn, from the last digit on.
fn with_check_digit(digits: String) -> String {
    let weighted = |(i, digit): (usize, u8)| u32::from(digit - b'0') * if i % 2 == 0 { 3 } else { 1 };
    let sum: u32 = digits.bytes().rev().enumerate().map(weighted).sum();
    format!("{digits}{}", (10 - sum % 10) % 10)
}

/// A number of up to 16 digits, and a digit count, mostly 8 or 13.
fn card(r: &mut Rng) -> (u64, u32) {
    let digits = r.of(&[8, 8, 8, 13, 13, 13, 0]);
    if digits == 0 {
        let longest = 1 + r.below(16) as u32;
        (r.below(10u64.pow(longest)), r.below(21) as u32)
    } else {
        (r.below(10u64.pow(digits)), digits)
    }
}

#[test]
fn worked_values() {
    let mut board = datach();
    for (number, digits, wanted) in [
        (96_385_074, 8, Some("96385074")),
        (96_385_070, 8, Some("96385074")),
        (4_901_234, 7, Some("49012347")),
        (490_123_456_789, 12, Some("49012347")),
        (49_012_345_678_945, 14, Some("49012347")),
        (4_006_381_333_930, 13, Some("4006381333931")),
        (36_000_291_452, 13, Some("0036000291452")),
        (490_123, 6, None),
    ] {
        assert_eq!(answer(&shown(&mut board, number, digits)).as_deref(), wanted);
    }
    let digits = decode(&shown(&mut board, 36_000_291_452, 13)).unwrap();
    assert_eq!((digits.as_slice(), digits.number()), (&[0, 0, 3, 6, 0, 0, 0, 2, 9, 1, 4, 5, 2][..], 36_000_291_452));
    assert_eq!(format!("{digits:>15}|{digits:<14}|"), "  0036000291452|0036000291452 |");
    assert_eq!(answer(&[]), None);
}

#[test]
fn every_card_of_gs1_cards() {
    assert_eq!(CARDS.lines().count(), BARS.lines().count());
    let (mut taken, mut refused, mut flipped) = (0, 0, 0);
    for (line, written) in CARDS.lines().zip(BARS.lines()).filter(|(_, written)| !written.starts_with("no card")) {
        let (number, digits) = line.split_once(' ').unwrap();
        let words: Vec<&str> = written.split(' ').collect();
        let [count, check, bars] = words[..] else { panic!("{written}") };
        let mut modules: Vec<u8> = bars.bytes().map(|bar| if bar == b'#' { 0 } else { 8 }).collect();
        assert_eq!(modules.len().to_string(), count);
        let wanted = digits_shown(number.parse().unwrap(), digits.parse().unwrap()).map(|digits| digits + check);
        assert_eq!(answer(&modules), wanted, "{line}");
        if wanted.is_none() {
            refused += 1;
            continue;
        }
        taken += 1;
        for at in 0..modules.len() {
            modules[at] ^= 8;
            assert_eq!(answer(&modules), None, "{line}, module {at} flipped");
            modules[at] ^= 8;
            flipped += 1;
        }
    }
    assert_eq!((taken, refused, flipped), (115, 20, 16_440));
}

/// Every row of the picture that the program card draws: a byte is a module, all its pixels black or all white.
#[test]
fn picture_of_a_card() {
    let rows = PICTURE.strip_prefix(b"P4\n1056 80\n").unwrap();
    assert_eq!(rows.len(), 80 * 132);
    for row in rows.chunks(132) {
        let module = |pixels: &u8| match *pixels {
            0 => 8,
            255 => 0,
            other => panic!("{other} is no module"),
        };
        assert_eq!(answer(&row.iter().map(module).collect::<Vec<u8>>()).as_deref(), Some("96385074"));
    }
}

/// What a reader shows of a card is decoded, and a card of the digits decoded shows the same. So does the published reader.
#[test]
fn cards_in_a_reader() {
    let published = published();
    let mut r = Rng(16);
    let mut board = datach();
    let (mut eight, mut thirteen, mut refused) = (0, 0, 0);
    for _ in 0..20_000 {
        let (number, digits) = card(&mut r);
        let modules = shown(&mut board, number, digits);
        let wanted = digits_shown(number, digits as usize).map(with_check_digit);
        assert_eq!(answer(&modules), wanted, "card {number} {digits}");
        if published {
            assert_eq!(published_list(number, digits), modules, "card {number} {digits}");
        }
        let Ok(decoded) = decode(&modules) else {
            refused += 1;
            continue;
        };
        let count = decoded.as_slice().len();
        assert_eq!(shown(&mut board, decoded.number(), count as u32), modules);
        (eight, thirteen) = (eight + u32::from(count == 8), thirteen + u32::from(count == 13));
    }
    assert!(eight > 7000 && thirteen > 7000 && refused > 300, "{eight} of 8 digits, {thirteen} of 13, {refused} refused");
}

/// A list of a length: any bytes, dark and light at random, or a card cut or repeated, mostly with up to three bytes changed.
fn list(r: &mut Rng, board: &mut Board, length: usize) -> Vec<u8> {
    match r.below(6) {
        0 => (0..length).map(|_| r.byte()).collect(),
        1 => (0..length).map(|_| r.of(&[0, 8])).collect(),
        _ => {
            let (number, digits) = card(r);
            let mut list: Vec<u8> = shown(board, number, digits).into_iter().cycle().take(length).collect();
            for _ in 0..r.below(4).min(length as u64) {
                let at = r.below(length as u64) as usize;
                list[at] = if r.below(4) == 0 { r.byte() } else { list[at] ^ 8 };
            }
            list
        }
    }
}

/// Lists of every length against the search over lists that the published reader makes.
#[test]
fn lists_of_every_length() {
    if !published() {
        return;
    }
    let mut r = Rng(17);
    let mut board = datach();
    let (mut taken, mut refused) = (0, 0);
    for length in 0..=400 {
        let times = if [132, 160].contains(&length) { 20_000 } else { 50 };
        for _ in 0..times {
            let list = list(&mut r, &mut board, length);
            let decoded = decode(&list);
            assert_eq!(decoded.as_ref().ok().map(|digits| digits.as_slice().to_vec()), searched(&list), "{list:?}");
            (taken, refused) = (taken + u32::from(decoded.is_ok()), refused + u32::from(decoded.is_err()));
        }
    }
    assert!(taken > 3000 && refused > 40_000, "{taken} taken, {refused} refused");
}

/// Every other byte at each place: 1 for 0 and 9 for 8 among them.
#[test]
fn other_bytes() {
    let mut board = datach();
    for (number, digits) in [(96_385_074, 8), (4_006_381_333_931, 13)] {
        let modules = shown(&mut board, number, digits);
        for at in 0..modules.len() {
            let mut other = modules.clone();
            for byte in (0..=255).filter(|byte| *byte != modules[at]) {
                other[at] = byte;
                assert_eq!(answer(&other), None, "{byte} at {at}");
            }
        }
    }
}

/// A list of 8 digits padded to 160, one of 13 cut to 132, an entry more or less, and two cards joined.
#[test]
fn other_lengths() {
    let mut board = datach();
    let (eight, thirteen) = (shown(&mut board, 96_385_074, 8), shown(&mut board, 4_006_381_333_931, 13));
    for byte in [0, 1, 8, 9] {
        let padding = [byte; 28];
        for before in 0..=28 {
            assert_eq!(answer(&[&padding[..before], &eight, &padding[before..]].concat()), None, "{before} of {byte} before");
        }
        for modules in [&eight[..], &thirteen] {
            assert_eq!(answer(&[modules, &[byte]].concat()), None);
            assert_eq!(answer(&[&[byte][..], modules].concat()), None);
        }
    }
    for first in 0..=28 {
        assert_eq!(answer(&thirteen[first..first + 132]), None, "cut from {first} on");
    }
    for modules in [&eight, &thirteen] {
        assert_eq!((answer(&modules[1..]), answer(&modules[..modules.len() - 1])), (None, None));
        assert_eq!(answer(&[&modules[..], modules].concat()), None);
    }
}

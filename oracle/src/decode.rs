//! The check on a list of modules: the digits of the card that has them. The published crate has no such call. What a digit
//! looks like is read off lists that its `init` makes of chosen cards, the given list is searched for these, and then `init`
//! makes the list of the digits that were found: it decides.
use crate::mapper::bandai_fcg::BarcodeReader;
use std::{array::from_fn, sync::OnceLock};

/// The modules of a digit.
type Seven = [u8; 7];

/// Where the first left digit starts, and how many modules stand between the last left digit and the first right one.
const LEFT: usize = 36;
const CENTRE: usize = 5;

/// What a digit looks like in the lists of the published `init`.
struct Looks {
    left_odd: [Seven; 10],
    left_even: [Seven; 10],
    right: [Seven; 10],
    /// Which of the six left digits are of `left_odd`, by the leading digit.
    odd: [[bool; 6]; 10],
}

/// The list that the published reader shows of a card.
fn list(number: u64, digits: u32) -> Vec<u8> {
    let mut reader = BarcodeReader::new();
    reader.input(number, digits);
    reader.init();
    reader.data.to_vec()
}

/// The seven modules at a place of a list.
fn seven(modules: &[u8], at: usize) -> Seven {
    modules[at..at + 7].try_into().unwrap()
}

/// How digits look, read off once. Each card has the digit in one place and zeros beside it.
fn looks() -> &'static Looks {
    static LOOKS: OnceLock<Looks> = OnceLock::new();
    LOOKS.get_or_init(|| {
        let left_odd = from_fn(|d| seven(&list(d as u64 * 10_u64.pow(7), 8), LEFT));
        // the third left digit under the leading digit 1
        let left_even = from_fn(|d| seven(&list(10_u64.pow(12) + d as u64 * 10_u64.pow(9), 13), LEFT + 14));
        let right = from_fn(|d| seven(&list(d as u64 * 1000, 8), LEFT + 28 + CENTRE));
        let odd = from_fn(|leading| {
            let card = list(leading as u64 * 10_u64.pow(12), 13);
            from_fn(|place| seven(&card, LEFT + 7 * place) == left_odd[0])
        });
        Looks { left_odd, left_even, right, odd }
    })
}

/// The place in a list of looks, which is the digit.
fn search<T: PartialEq>(looks: &[T], wanted: &T) -> Option<u8> {
    looks.iter().position(|look| look == wanted).map(|digit| digit as u8)
}

/// The four or six left digits, and which of them are of the odd set.
fn left(modules: &[u8], count: usize) -> Option<Vec<(u8, bool)>> {
    let Looks { left_odd, left_even, .. } = looks();
    let digit = |place| {
        let look = seven(modules, LEFT + 7 * place);
        let odd = search(left_odd, &look).map(|digit| (digit, true));
        odd.or_else(|| search(left_even, &look).map(|digit| (digit, false)))
    };
    (0..count).map(digit).collect()
}

/// As many right digits as left ones; the last is the check digit.
fn right(modules: &[u8], count: usize) -> Option<Vec<u8>> {
    let start = LEFT + 7 * count + CENTRE;
    (0..count).map(|place| search(&looks().right, &seven(modules, start + 7 * place))).collect()
}

/// The digits that stand in a list of 132 or of 160 modules. Guards, quiet zones and the check digit are not tested.
fn found(modules: &[u8]) -> Option<Vec<u8>> {
    let count = match modules.len() {
        132 => 4,
        160 => 6,
        _ => return None,
    };
    let left = left(modules, count)?;
    let mut digits = Vec::new();
    if count == 6 {
        let odd: [bool; 6] = from_fn(|place| left[place].1);
        digits.push(search(&looks().odd, &odd)?);
    }
    digits.extend(left.iter().map(|(digit, _)| digit));
    digits.extend(right(modules, count)?);
    Some(digits)
}

/// The 8 or 13 digits of the card that has these modules, its check digit included; nothing where no card of so many digits
/// has them.
pub fn decode(modules: &[u8]) -> Option<Vec<u8>> {
    let digits = found(modules)?;
    let number = digits.iter().fold(0, |number, digit| 10 * number + u64::from(*digit));
    (list(number, digits.len() as u32) == modules).then_some(digits)
}

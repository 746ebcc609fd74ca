//! The modules of cards, written from GS1's widths and sets alone: `decode` lines are made of them without the published
//! files.

/// The widths of a digit's elements in set A: a space, a bar, a space, a bar.
const WIDTHS: [[usize; 4]; 10] = [
    [3, 2, 1, 1],
    [2, 2, 2, 1],
    [2, 1, 2, 2],
    [1, 4, 1, 1],
    [1, 1, 3, 2],
    [1, 2, 3, 1],
    [1, 1, 1, 4],
    [1, 3, 1, 2],
    [1, 2, 1, 3],
    [3, 1, 1, 2],
];

/// The sets of the six left digits, by the leading digit.
const ROWS: [&str; 10] =
    ["AAAAAA", "AABABB", "AABBAB", "AABBBA", "ABAABB", "ABBAAB", "ABBBAA", "ABABAB", "ABABBA", "ABBABA"];

/// A digit, and the set that it is shown in: A, B or C.
pub type Shown = (u8, char);

/// The seven modules of a digit. C has A's spaces for bars and A's bars for spaces. B is C from right to left.
fn modules((digit, set): Shown) -> Vec<u8> {
    let light = |element: usize| if element.is_multiple_of(2) == (set == 'A') { 8 } else { 0 };
    let elements = WIDTHS[usize::from(digit)].into_iter().enumerate();
    let mut modules: Vec<u8> = elements.flat_map(|(element, width)| vec![light(element); width]).collect();
    if set == 'B' {
        modules.reverse();
    }
    modules
}

/// The list with these digits left and right of the centre, between guards and quiet zones.
pub fn framed(left: &[Shown], right: &[Shown]) -> Vec<u8> {
    let all = |digits: &[Shown]| digits.iter().copied().flat_map(modules).collect::<Vec<u8>>();
    [&[8; 33][..], &[0, 8, 0], &all(left), &[8, 0, 8, 0, 8], &all(right), &[0, 8, 0], &[8; 32]].concat()
}

/// The check digit. The weights are 1 and 3 in turn; the first of twelve digits has 1, the first of fewer has 3.
fn check(digits: &[u8]) -> u8 {
    let first = if digits.len() == 12 { 1 } else { 3 };
    let weight = |place: usize| if place.is_multiple_of(2) { first } else { 4 - first };
    let sum: u32 = digits.iter().enumerate().map(|(place, digit)| weight(place) * u32::from(*digit)).sum();
    ((10 - sum % 10) % 10) as u8
}

/// The digits of a card left and right of the centre, its check digit last. Of a card of 13 all are shown, of any other at
/// most seven.
pub fn shown(number: u64, count: usize) -> [Vec<Shown>; 2] {
    let digits: Vec<u8> = format!("{number:0count$}").bytes().map(|byte| byte - b'0').collect();
    let (row, first, middle, end) = match digits.len() {
        13 => (ROWS[usize::from(digits[0])], 1, 7, 12),
        length => (ROWS[0], 0, length.min(4), length.min(7)),
    };
    let left = digits[first..middle].iter().copied().zip(row.chars()).collect();
    let mut right: Vec<Shown> = digits[middle..end].iter().map(|digit| (*digit, 'C')).collect();
    right.push((check(&digits[..end]), 'C'));
    [left, right]
}

/// The list of a card.
pub fn list(number: u64, count: usize) -> Vec<u8> {
    let [left, right] = shown(number, count);
    framed(&left, &right)
}

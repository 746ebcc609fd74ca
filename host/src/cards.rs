//! The check on a list of modules: the digits of the card that has them.
use crate::{Refusal, layout::laid_out, raw};
use std::fmt;

/// The digits of a card, its check digit last: 8 of them, or 13. Written out they keep the zeros before the number.
#[derive(Clone, Copy, Debug, PartialEq, Eq)]
#[repr(C)]
pub struct Digits {
    /// How many there are.
    len: usize,
    /// The digits, and zeros past them.
    digit: [u8; 20],
}

laid_out!(Digits, 32, 8, len 0, digit 8);

impl Digits {
    /// The digits in their order, each a number from 0 to 9.
    #[must_use]
    pub fn as_slice(&self) -> &[u8] {
        &self.digit[..self.len.min(self.digit.len())]
    }

    /// The number of the card. A card of this number and of as many digits has the modules that were decoded.
    #[must_use]
    pub fn number(self) -> u64 {
        self.as_slice().iter().fold(0, |number, digit| 10 * number + u64::from(*digit))
    }
}

impl fmt::Display for Digits {
    fn fmt(&self, f: &mut fmt::Formatter<'_>) -> fmt::Result {
        let digits: String = self.as_slice().iter().map(|digit| char::from(b'0' + digit)).collect();
        f.pad(&digits)
    }
}

/// Returns the digits of the card that has these modules: 8 light, 0 dark, with the quiet zones of 33 and 32. It is what
/// [`Board::modules`](crate::Board::modules) gives after [`Board::init`](crate::Board::init), and no board is needed for it.
///
/// A card of 8 digits has 132 modules, one of 13 has 160. The check digit is the right one: a card whose last digit is another shows
/// the same modules. A card of 7, of 9 to 12 or of 14 to 20 digits shows its first seven digits and their check digit, so its list is
/// decoded as that of a card of 8.
///
/// ```
/// use molbitak::{Refusal, decode};
/// let bars = "#.#...#.##.#.####.####.#.##.###.#.#.#..###.###..#.#...#..#.###..#.#";
/// let dark_or_light = bars.bytes().map(|bar| if bar == b'#' { 0 } else { 8 });
/// let mut modules: Vec<u8> = [8; 33].into_iter().chain(dark_or_light).chain([8; 32]).collect();
/// let digits = decode(&modules)?;
/// assert_eq!(digits.to_string(), "96385074");
/// assert_eq!((digits.as_slice(), digits.number()), (&[9, 6, 3, 8, 5, 0, 7, 4][..], 96_385_074));
/// modules[40] ^= 8; // a spot on the print
/// assert_eq!(decode(&modules), Err(Refusal::NoSuchCard));
/// # Ok::<(), Refusal>(())
/// ```
///
/// # Errors
/// [`Refusal::NoSuchCard`] where no card of 8 or 13 digits has exactly these modules.
pub fn decode(modules: &[u8]) -> Result<Digits, Refusal> {
    // SAFETY: pointer and length are the slice's; the library only reads it.
    let decoded = unsafe { raw::molbitak_decode(modules.as_ptr(), modules.len()) };
    Refusal::check(decoded.refusal)?;
    Ok(decoded.digits)
}

//! The numbers that faulty calls get.
use std::{error::Error, fmt};

/// Why a call was refused. A refused call changes nothing. [`Refusal::number`] gives the number.
///
/// Later versions may name more numbers, so a match has an arm for the others.
///
/// ```
/// use molbitak::{Board, Cart, Refusal};
/// let refused = Board::load(&Cart { mapper_num: 18, ..Cart::default() }).unwrap_err();
/// assert_eq!((refused, refused.number()), (Refusal::MapperUnknown, 1));
/// assert_eq!(refused.to_string(), "the mapper is not 16, 153, 157 or 159 (refusal 1)");
/// ```
#[derive(Clone, Copy, Debug, PartialEq, Eq, Hash, PartialOrd, Ord)]
#[non_exhaustive]
pub enum Refusal {
    /// 1: the mapper is not 16, 153, 157 or 159.
    MapperUnknown,
    /// 2: a size is above 16,777,216.
    SizeTooLarge,
    /// 3: the NES 2.0 flag, the mirroring or the access is a code that is not listed.
    CodeUnlisted,
    /// 4: a card or an insertion on a board without a reader.
    NoReader,
    /// 5: a digit count above 20.
    DigitCount,
    /// 6: the reader's clock would pass 2^62.
    ClockLimit,
    /// 7: the level of a line is above 1.
    LineLevel,
    /// 8: the chip is not fitted, or its number is above 1.
    ChipNotFitted,
    /// 9: the length of the image does not match the layout.
    ImageLength,
    /// 10: the buffer is too short.
    BufferTooShort,
    /// 11: the bytes are not a state file that the writer makes.
    NotAStateFile,
    /// 12: the board is not valid. No call on a [`Board`](crate::Board) gives it; the calls of [`raw`](crate::raw) do.
    BoardNotValid,
    /// 13: the kind of an event is unknown.
    KindUnknown,
    /// 16: the modules are those of no card of 8 or 13 digits.
    NoSuchCard,
    /// 17: the chip rule is a code that is not listed.
    RuleUnlisted,
    /// A number that this crate has no name for. The library gives none.
    Unknown(u8),
}

impl Refusal {
    /// Every refusal that has a name, in the order of the numbers.
    pub const ALL: &[Refusal] = &[
        Refusal::MapperUnknown,
        Refusal::SizeTooLarge,
        Refusal::CodeUnlisted,
        Refusal::NoReader,
        Refusal::DigitCount,
        Refusal::ClockLimit,
        Refusal::LineLevel,
        Refusal::ChipNotFitted,
        Refusal::ImageLength,
        Refusal::BufferTooShort,
        Refusal::NotAStateFile,
        Refusal::BoardNotValid,
        Refusal::KindUnknown,
        Refusal::NoSuchCard,
        Refusal::RuleUnlisted,
    ];

    /// The number.
    #[must_use]
    pub const fn number(self) -> u8 {
        match self {
            Refusal::MapperUnknown => 1,
            Refusal::SizeTooLarge => 2,
            Refusal::CodeUnlisted => 3,
            Refusal::NoReader => 4,
            Refusal::DigitCount => 5,
            Refusal::ClockLimit => 6,
            Refusal::LineLevel => 7,
            Refusal::ChipNotFitted => 8,
            Refusal::ImageLength => 9,
            Refusal::BufferTooShort => 10,
            Refusal::NotAStateFile => 11,
            Refusal::BoardNotValid => 12,
            Refusal::KindUnknown => 13,
            Refusal::NoSuchCard => 16,
            Refusal::RuleUnlisted => 17,
            Refusal::Unknown(number) => number,
        }
    }

    /// The refusal of a number; none of 0.
    #[must_use]
    pub const fn of(number: u8) -> Option<Refusal> {
        Some(match number {
            0 => return None,
            1 => Refusal::MapperUnknown,
            2 => Refusal::SizeTooLarge,
            3 => Refusal::CodeUnlisted,
            4 => Refusal::NoReader,
            5 => Refusal::DigitCount,
            6 => Refusal::ClockLimit,
            7 => Refusal::LineLevel,
            8 => Refusal::ChipNotFitted,
            9 => Refusal::ImageLength,
            10 => Refusal::BufferTooShort,
            11 => Refusal::NotAStateFile,
            12 => Refusal::BoardNotValid,
            13 => Refusal::KindUnknown,
            16 => Refusal::NoSuchCard,
            17 => Refusal::RuleUnlisted,
            number => Refusal::Unknown(number),
        })
    }

    /// What a call that answers a number gives: 0 is success.
    #[inline(always)]
    pub(crate) fn check(number: u8) -> Result<(), Refusal> {
        if number == 0 { Ok(()) } else { Err(Refusal::refused(number)) }
    }

    #[cold]
    fn refused(number: u8) -> Refusal {
        Refusal::of(number).unwrap_or(Refusal::Unknown(number))
    }
}

impl fmt::Display for Refusal {
    fn fmt(&self, f: &mut fmt::Formatter<'_>) -> fmt::Result {
        let why = match self {
            Refusal::MapperUnknown => "the mapper is not 16, 153, 157 or 159",
            Refusal::SizeTooLarge => "a size is above 16,777,216 bytes",
            Refusal::CodeUnlisted => "the NES 2.0 flag is above 1, or the mirroring or the access above 4",
            Refusal::NoReader => "the board has no card reader",
            Refusal::DigitCount => "a card has at most 20 digits",
            Refusal::ClockLimit => "the reader's clock would pass 2^62",
            Refusal::LineLevel => "a line's level is 0 or 1",
            Refusal::ChipNotFitted => "this chip is not fitted",
            Refusal::ImageLength => "the image has not the length of the board's layout",
            Refusal::BufferTooShort => "the buffer is too short",
            Refusal::NotAStateFile => "the bytes are not a state file",
            Refusal::BoardNotValid => "the board's state is not valid",
            Refusal::KindUnknown => "an event's kind is 0 to 5",
            Refusal::NoSuchCard => "no card of 8 or 13 digits has these modules",
            Refusal::RuleUnlisted => "the chip rule is above 1",
            Refusal::Unknown(_) => "a number without a name",
        };
        write!(f, "{why} (refusal {})", self.number())
    }
}

impl Error for Refusal {}

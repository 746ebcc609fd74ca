//! Event records and their answers.
use crate::Refusal;

/// A record of a session. Fields that its kind does not name are ignored; a kind above 5 is refused with
/// [`Refusal::KindUnknown`].
///
/// Later versions may add fields. The functions below make a record of each kind; any other is a default record with its fields set:
///
/// ```
/// # use molbitak::Event;
/// let mut event = Event::default();
/// event.kind = Event::CLOCKS;
/// event.count = 3;
/// assert_eq!(event, Event::clocks(3));
/// ```
#[derive(Clone, Copy, Debug, Default, PartialEq, Eq, Hash)]
#[non_exhaustive]
#[repr(C)]
pub struct Event {
    /// A card's number.
    pub number: u64,
    /// How many clocks, or a card's digit count.
    pub count: u32,
    /// Of a register write or a device read.
    pub address: u16,
    /// 0 register write, 1 device read, 2 clocks, 3 card, 4 insert, 5 lines.
    pub kind: u8,
    /// Of a register write.
    pub value: u8,
    /// 0 the standard chip, 1 the extra one.
    pub chip: u8,
    /// The clock line's level, 0 or 1.
    pub scl: u8,
    /// The data line's level, 0 or 1.
    pub sda: u8,
    /// Bytes that no kind names. They are a field, so that a list of events is written memory throughout and can be lent as words.
    pub(crate) unused: [u8; 5],
}

impl Event {
    /// The kind of a register write.
    pub const WRITE: u8 = 0;
    /// The kind of a device read.
    pub const READ: u8 = 1;
    /// The kind of clocks.
    pub const CLOCKS: u8 = 2;
    /// The kind of a card.
    pub const CARD: u8 = 3;
    /// The kind of an insertion.
    pub const INSERT: u8 = 4;
    /// The kind of a change of lines.
    pub const LINES: u8 = 5;

    /// The record of three words, as it lies in memory with the low byte first: the number; count, address, kind and value; chip, SCL,
    /// SDA and five bytes that say nothing.
    ///
    /// ```
    /// # use molbitak::Event;
    /// assert_eq!(Event::of_words([7, 13 | 3 << 48, 0]), Event::card(7, 13));
    /// ```
    #[must_use]
    pub const fn of_words(words: [u64; 3]) -> Event {
        let [number, second, third] = words;
        let [c0, c1, c2, c3, a0, a1, kind, value] = second.to_le_bytes();
        let [chip, scl, sda, unused @ ..] = third.to_le_bytes();
        let count = u32::from_le_bytes([c0, c1, c2, c3]);
        let address = u16::from_le_bytes([a0, a1]);
        Event { number, count, address, kind, value, chip, scl, sda, unused }
    }

    /// All fields 0 but the kind.
    const fn of(kind: u8) -> Event {
        Event { number: 0, count: 0, address: 0, kind, value: 0, chip: 0, scl: 0, sda: 0, unused: [0; 5] }
    }

    /// A register write.
    #[must_use]
    pub const fn write(address: u16, value: u8) -> Event {
        Event { address, value, ..Event::of(Event::WRITE) }
    }

    /// A device read.
    #[must_use]
    pub const fn read(address: u16) -> Event {
        Event { address, ..Event::of(Event::READ) }
    }

    /// `count` clocks.
    #[must_use]
    pub const fn clocks(count: u32) -> Event {
        Event { count, ..Event::of(Event::CLOCKS) }
    }

    /// A card is put in; it shows nothing until an insertion.
    #[must_use]
    pub const fn card(number: u64, digit_count: u32) -> Event {
        Event { number, count: digit_count, ..Event::of(Event::CARD) }
    }

    /// The card is inserted.
    #[must_use]
    pub const fn insert() -> Event {
        Event::of(Event::INSERT)
    }

    /// A chip's lines go to these levels.
    #[must_use]
    pub const fn lines(chip: u8, scl: u8, sda: u8) -> Event {
        Event { chip, scl, sda, ..Event::of(Event::LINES) }
    }
}

/// What an event answered: the three bytes that a session writes for it.
#[derive(Clone, Copy, Debug, Default, PartialEq, Eq, Hash)]
#[repr(C)]
pub struct Answer {
    refusal: u8,
    flags: u8,
    value: u8,
}

crate::layout::laid_out!(Answer, 3, 1, refusal 0, flags 1, value 2);

impl Answer {
    /// The answer of three bytes.
    #[must_use]
    pub const fn of(bytes: [u8; 3]) -> Answer {
        Answer { refusal: bytes[0], flags: bytes[1], value: bytes[2] }
    }

    /// Its three bytes.
    #[must_use]
    pub const fn bytes(self) -> [u8; 3] {
        [self.refusal, self.flags, self.value]
    }

    /// Why the event was refused, if it was.
    #[must_use]
    pub const fn refusal(self) -> Option<Refusal> {
        Refusal::of(self.refusal)
    }

    /// The value that a device answered, if one did.
    #[must_use]
    pub const fn read(self) -> Option<u8> {
        if self.flags & 1 == 1 { Some(self.value) } else { None }
    }

    /// Whether an interrupt is pending after the event.
    #[must_use]
    pub const fn irq_pending(self) -> bool {
        self.flags & 2 == 2
    }
}

/// The answers in a session's buffer, one for each three bytes; a tail of one or two bytes is left out.
///
/// ```
/// use molbitak::{Refusal, answers};
/// let read: Vec<_> = answers(&[0, 3, 24, 13, 2, 0]).collect();
/// assert_eq!((read[0].read(), read[0].irq_pending()), (Some(24), true));
/// assert_eq!(read[1].refusal(), Some(Refusal::KindUnknown));
/// ```
pub fn answers(buffer: &[u8]) -> impl Iterator<Item = Answer> + '_ {
    buffer.chunks_exact(3).map(|b| Answer::of([b[0], b[1], b[2]]))
}

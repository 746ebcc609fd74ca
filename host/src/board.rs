//! The board and the calls that step it.
use crate::{
    Cart, Event, Mirroring, Refusal,
    layout::{BandaiC, BarcodeReader, BoardC, DevicesC, EepromC, LoadedC, Regs},
    raw,
};

/// A board, always valid.
///
/// Its state is private, and is only ever what the library gave: `load`, `resume`, and calls that are proved to leave a valid board
/// valid. So each call here is the one without the test of validity.
#[derive(Clone, Debug, PartialEq, Eq)]
pub struct Board {
    pub(crate) state: BoardC,
    /// Whether the cart lets its devices be read: it never changes, and is asked once.
    may_read: bool,
}

/// What a session did. Later versions may add counts.
#[derive(Clone, Copy, Debug, PartialEq, Eq)]
#[non_exhaustive]
pub struct SessionEnd {
    /// How many records the list has.
    pub records: usize,
    /// How many of them were refused.
    pub refused: usize,
}

impl Board {
    /// Fits a board: `BandaiFCG::load`.
    ///
    /// # Errors
    /// [`Refusal::MapperUnknown`], then [`Refusal::SizeTooLarge`], [`Refusal::CodeUnlisted`] and [`Refusal::RuleUnlisted`].
    pub fn load(cart: &Cart) -> Result<Board, Refusal> {
        Board::of(raw::molbitak_load(*cart))
    }

    /// The board that fitting, or reading a state file, gave.
    pub(crate) fn of(loaded: LoadedC) -> Result<Board, Refusal> {
        Refusal::check(loaded.refusal)?;
        let state = loaded.board;
        Ok(Board { may_read: raw::molbitak_may_read(state.bandai.cart), state })
    }

    /// A write by the CPU. The page tables change with it: see [`Board::page_tables`].
    ///
    /// ```
    /// # use molbitak::*;
    /// # let mut board = Board::load(&Cart { mapper_num: 159, prg_rom_size: 262_144, ..Cart::default() })?;
    /// board.write_register(0x8009, 3);
    /// assert_eq!(board.mirroring(), Mirroring::SingleScreenB);
    /// # Ok::<(), Refusal>(())
    /// ```
    #[inline]
    pub fn write_register(&mut self, addr: u16, val: u8) {
        let BoardC { bandai: BandaiC { cart, regs, devices, .. }, standard_rom, extra_rom, .. } = &mut self.state;
        let DevicesC { standard_eeprom, extra_eeprom, has_standard_eeprom, has_extra_eeprom, .. } = devices;
        *regs = raw::molbitak_write_register(
            *cart,
            *regs,
            standard_eeprom,
            extra_eeprom,
            *has_standard_eeprom,
            *has_extra_eeprom,
            standard_rom,
            extra_rom,
            addr,
            val,
        );
    }

    /// What the board's devices answer to a read by the CPU; `None` where none answers, and the page tables serve the address.
    #[inline]
    #[must_use]
    pub fn prg_peek(&self, addr: u16) -> Option<u8> {
        // Where the devices answer is asked here, so that the many reads elsewhere cost no call; tests/published.rs holds it to the
        // library's `molbitak_event` at every address.
        if !self.may_read || !matches!(addr, 0x6000..=0x7FFF) {
            return None;
        }
        let BandaiC { barcode_reader, devices, .. } = &self.state.bandai;
        Some(raw::molbitak_device_read(devices, barcode_reader.module_count, barcode_reader, &self.state.modules))
    }

    /// One clock of the CPU.
    ///
    /// # Errors
    /// [`Refusal::ClockLimit`] where a reader's clock is at 2^62: 80,000 years of play, or a state file made so.
    #[inline]
    pub fn clock(&mut self) -> Result<(), Refusal> {
        self.clocks(1)
    }

    /// `count` clocks, in the time of one. 0 does nothing.
    ///
    /// ```
    /// # use molbitak::*;
    /// # let mut board = Board::load(&Cart { mapper_num: 159, ..Cart::default() })?;
    /// board.write_register(0x800B, 3);
    /// board.write_register(0x800A, 1); // counts down from 3
    /// board.clocks(3)?;
    /// assert!(!board.irq_pending());
    /// board.clocks(1)?;
    /// assert!(board.irq_pending());
    /// # Ok::<(), Refusal>(())
    /// ```
    ///
    /// # Errors
    /// [`Refusal::ClockLimit`] where the reader's clock would pass 2^62; then none of the clocks is taken.
    #[inline]
    pub fn clocks(&mut self, count: u32) -> Result<(), Refusal> {
        let BandaiC { barcode_reader, regs, devices, .. } = &mut self.state.bandai;
        let Regs { irq_counter, irq_enabled, irq_pending, .. } = regs;
        let clock = &mut barcode_reader.master_clock;
        Refusal::check(raw::molbitak_clocks(clock, devices.has_barcode_reader, irq_counter, irq_pending, *irq_enabled, count))
    }

    /// Whether an interrupt is pending.
    #[inline]
    #[must_use]
    pub fn irq_pending(&self) -> bool {
        self.state.bandai.regs.irq_pending
    }

    /// The mirroring in force.
    #[inline]
    #[must_use]
    pub fn mirroring(&self) -> Mirroring {
        // a valid board has a code of 0 to 4
        Mirroring::of(self.state.bandai.regs.mirroring).unwrap_or(Mirroring::FourScreen)
    }

    /// A card is put into the reader: `BarcodeReader::input`. It shows nothing until [`Board::init`].
    ///
    /// # Errors
    /// [`Refusal::NoReader`], then [`Refusal::DigitCount`].
    pub fn input(&mut self, number: u64, digits: u32) -> Result<(), Refusal> {
        let BandaiC { barcode_reader, devices, .. } = &mut self.state.bandai;
        let BarcodeReader { new_barcode, new_barcode_digit_count, .. } = barcode_reader;
        Refusal::check(raw::molbitak_card(new_barcode, new_barcode_digit_count, devices.has_barcode_reader, number, digits))
    }

    /// The card is inserted: `BarcodeReader::init`. Its modules are shown from this clock on, 1,000 clocks each.
    ///
    /// # Errors
    /// [`Refusal::NoReader`].
    pub fn init(&mut self) -> Result<(), Refusal> {
        let BoardC { bandai: BandaiC { barcode_reader, devices, .. }, modules, .. } = &mut self.state;
        let BarcodeReader { master_clock, insert_cycle, new_barcode, new_barcode_digit_count, module_count } = barcode_reader;
        let fitted = devices.has_barcode_reader;
        Refusal::check(raw::molbitak_insert(
            insert_cycle,
            module_count,
            modules,
            fitted,
            *master_clock,
            *new_barcode,
            *new_barcode_digit_count,
        ))
    }

    /// The lines of a chip (0 standard, 1 extra) go to these levels: `Eeprom::write`, or an X24C02's data sheet where the cart says so
    /// ([`EepromRule`](crate::EepromRule)).
    ///
    /// # Errors
    /// [`Refusal::ChipNotFitted`], then [`Refusal::LineLevel`].
    #[inline]
    pub fn lines(&mut self, chip: u8, scl: u8, sda: u8) -> Result<(), Refusal> {
        let BoardC { bandai, standard_rom, extra_rom, .. } = &mut self.state;
        let DevicesC { standard_eeprom, extra_eeprom, has_standard_eeprom, has_extra_eeprom, .. } = &mut bandai.devices;
        // lends the parts of the chip that is meant; the library refuses a number that is no fitted chip's, and touches nothing
        let (eeprom, rom, fitted) = if chip == 0 {
            (standard_eeprom, standard_rom, *has_standard_eeprom)
        } else {
            (extra_eeprom, extra_rom, *has_extra_eeprom)
        };
        Refusal::check(raw::molbitak_lines(eeprom, rom, chip, fitted, bandai.cart.eeprom_rule, scl, sda))
    }

    /// Runs the events in order, and writes three bytes for each into `answers` (see [`answers`](crate::answers)); the bytes past
    /// them are kept. A refused event changes nothing and answers its number, and the next one runs.
    ///
    /// ```
    /// # use molbitak::*;
    /// # let mut board = Board::load(&Cart { mapper_num: 159, ..Cart::default() })?;
    /// let mut buffer = [0xEE; 8];
    /// let end = board.session(&[Event::clocks(5), Event::insert()], &mut buffer)?;
    /// assert_eq!((end.records, end.refused), (2, 1));
    /// assert_eq!(buffer, [0, 0, 0, 4, 0, 0, 0xEE, 0xEE]); // 4: 159 has no reader
    /// # Ok::<(), Refusal>(())
    /// ```
    ///
    /// # Errors
    /// [`Refusal::BufferTooShort`] where `answers` has less than three bytes an event; then nothing is run or written.
    pub fn session(&mut self, events: &[Event], answers: &mut [u8]) -> Result<SessionEnd, Refusal> {
        let words = events.as_ptr().cast::<u64>();
        // SAFETY: an `Event` is three words, each byte of them a field's, and aligned as they are (asserted in layout.rs), so the list is
        // a slice of so many words; pointer and length of `answers` are the slice's, and `&mut` keeps everybody else from it.
        let end = unsafe { raw::molbitak_session(self.state, words, 3 * events.len(), answers.as_mut_ptr(), answers.len()) };
        Refusal::check(end.refusal)?;
        self.state = end.board;
        Ok(SessionEnd { records: end.records, refused: end.refused })
    }

    /// The description that the board was fitted from, as given.
    #[must_use]
    pub fn cart(&self) -> &Cart {
        &self.state.bandai.cart
    }

    /// The registers.
    #[must_use]
    pub fn regs(&self) -> &Regs {
        &self.state.bandai.regs
    }

    /// The card reader, if one is fitted.
    #[must_use]
    pub fn barcode_reader(&self) -> Option<&BarcodeReader> {
        self.state.bandai.devices.has_barcode_reader.then_some(&self.state.bandai.barcode_reader)
    }

    /// The modules of the inserted card: 8 light, 0 dark; none before an insertion and without a reader.
    #[must_use]
    pub fn modules(&self) -> &[u8] {
        let count = usize::from(self.state.bandai.barcode_reader.module_count);
        &self.state.modules[..count.min(self.state.modules.len())]
    }

    /// The standard EEPROM and its memory of 128 or 256 bytes, if one is fitted.
    #[must_use]
    pub fn standard_eeprom(&self) -> Option<(&EepromC, &[u8])> {
        let devices = &self.state.bandai.devices;
        devices.has_standard_eeprom.then(|| chip(&devices.standard_eeprom, &self.state.standard_rom))
    }

    /// The extra EEPROM and its memory of 128 bytes, if one is fitted.
    #[must_use]
    pub fn extra_eeprom(&self) -> Option<(&EepromC, &[u8])> {
        let devices = &self.state.bandai.devices;
        devices.has_extra_eeprom.then(|| chip(&devices.extra_eeprom, &self.state.extra_rom))
    }

    /// The whole state as it crosses the boundary, to look at.
    #[must_use]
    pub fn state(&self) -> &BoardC {
        &self.state
    }
}

/// A chip with the part of the array that is its memory.
fn chip<'a>(eeprom: &'a EepromC, rom: &'a [u8; 256]) -> (&'a EepromC, &'a [u8]) {
    (eeprom, &rom[..raw::molbitak_rom_size(eeprom.model)])
}

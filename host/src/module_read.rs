//! The module read.
use crate::{
    Board,
    layout::{BandaiC, laid_out},
    raw,
};

/// What the card reader shows. The number times 1,000 and the clocks spent are the clocks since the insertion.
#[derive(Clone, Copy, Debug, Default, PartialEq, Eq)]
#[repr(C)]
pub struct ModuleRead {
    /// The module's number, counted from the insertion on. Past the end of the card it goes on.
    pub number: u64,
    /// The clocks spent in the module, 0 to 999.
    pub spent: u16,
    /// 8 where the module is light; 0 where it is dark, and past the end of the card.
    pub light: u8,
}

laid_out!(ModuleRead, 16, 8, number 0, spent 8, light 10);

impl Board {
    /// Returns which module the card reader shows, the clocks spent in it, and its light; all 0 where no reader is fitted.
    ///
    /// It is no event and changes nothing. No address is asked, and what the cart lets be read does not matter. The light is bit 3 of
    /// [`Board::prg_peek`] where that answers.
    ///
    /// ```
    /// # use molbitak::*;
    /// # let mut board = Board::load(&Cart { mapper_num: 157, ..Cart::default() })?;
    /// board.input(4_901_234_567_894, 13)?;
    /// board.init()?;
    /// board.clocks(32_999)?;
    /// assert_eq!(board.module_read(), ModuleRead { number: 32, spent: 999, light: 8 }); // the last clock of the quiet zone
    /// board.clock()?;
    /// assert_eq!(board.module_read(), ModuleRead { number: 33, spent: 0, light: 0 }); // the first bar
    /// # Ok::<(), Refusal>(())
    /// ```
    #[inline]
    #[must_use]
    pub fn module_read(&self) -> ModuleRead {
        let BandaiC { barcode_reader, devices, .. } = &self.state.bandai;
        let fitted = devices.has_barcode_reader;
        raw::molbitak_module_read(barcode_reader, barcode_reader.module_count, fitted, &self.state.modules)
    }
}

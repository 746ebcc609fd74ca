//! Page tables, views of an image and pokes into it.
use crate::{
    Board, Refusal,
    layout::{ViewC, laid_out},
    raw,
};

/// An entry of a page table: 1 KiB of the image.
#[derive(Clone, Copy, Debug, Default, PartialEq, Eq, Hash)]
#[repr(transparent)] // a u32 of the library's tables
pub struct Page(u32);

impl Page {
    /// The bytes of a page.
    pub const SIZE: usize = 1024;

    const WRITABLE: u32 = 1 << 31;

    /// The page's first byte in the image; 0 for an unmapped page, which shows the image's first 1,024 bytes, zeros.
    #[inline]
    #[must_use]
    pub const fn offset(self) -> usize {
        (self.0 & !Page::WRITABLE) as usize
    }

    /// Whether a byte written there is stored.
    #[inline]
    #[must_use]
    pub const fn is_writable(self) -> bool {
        self.0 & Page::WRITABLE != 0
    }

    /// The entry as a number: the offset, plus 0x80000000 if writable.
    #[inline]
    #[must_use]
    pub const fn entry(self) -> u32 {
        self.0
    }
}

/// Both page tables of a board.
#[derive(Clone, Copy, Debug, PartialEq, Eq)]
#[repr(C)]
pub struct PageTables {
    /// A page for each KiB of the CPU's addresses.
    pub prg: [Page; 64],
    /// A page for each KiB of the PPU's addresses, 0 to 0x3FFF.
    pub chr: [Page; 16],
    refusal: u8,
}

impl PageTables {
    /// Why they were refused: never, of a [`Board`], which is valid.
    #[must_use]
    pub const fn refusal(&self) -> Option<Refusal> {
        Refusal::of(self.refusal)
    }
}

laid_out!(PageTables, 324, 4, prg 0, chr 256, refusal 320);

impl Board {
    /// Both page tables, as `update_banks` leaves them. They change with register writes only.
    ///
    /// ```
    /// # use molbitak::*;
    /// let board = Board::load(&Cart { mapper_num: 16, prg_rom_size: 40_960, ..Cart::default() })?;
    /// assert_eq!(board.page_tables().prg[48].offset(), 17_408);
    /// # Ok::<(), Refusal>(())
    /// ```
    #[must_use]
    pub fn page_tables(&self) -> PageTables {
        raw::molbitak_page_tables(self.state.bandai.cart, self.state.bandai.regs)
    }

    /// The length of the board's image: 1,024 zero bytes, then PRG ROM, CHR ROM, PRG RAM, battery extension, CHR RAM, CIRAM and
    /// expansion RAM, each in whole KiB.
    ///
    /// ```
    /// # use molbitak::*;
    /// let board = Board::load(&Cart { mapper_num: 16, prg_rom_size: 40_000, ..Cart::default() })?;
    /// assert_eq!(board.image_len(), 1024 + 40_960 + 2048);
    /// # Ok::<(), Refusal>(())
    /// ```
    #[must_use]
    pub fn image_len(&self) -> usize {
        raw::molbitak_image_len(self.state.bandai.cart) as usize
    }

    /// The 1,024 bytes of `image` that the CPU sees around an address.
    ///
    /// # Errors
    /// [`Refusal::ImageLength`] where the image has not the length of the board's layout.
    pub fn prg_page<'a>(&self, image: &'a [u8], addr: u16) -> Result<&'a [u8], Refusal> {
        part(image, raw::molbitak_prg_view(self.state, image.len(), addr))
    }

    /// The 1,024 bytes of `image` that the PPU sees around an address, counted modulo 16,384.
    ///
    /// # Errors
    /// [`Refusal::ImageLength`] where the image has not the length of the board's layout.
    pub fn chr_page<'a>(&self, image: &'a [u8], addr: u16) -> Result<&'a [u8], Refusal> {
        part(image, raw::molbitak_chr_view(self.state, image.len(), addr))
    }

    /// A byte stored by the CPU. On a page that may not be written the image stays as it is, and the call succeeds.
    ///
    /// # Errors
    /// [`Refusal::ImageLength`] where the image has not the length of the board's layout.
    pub fn prg_poke(&self, image: &mut [u8], addr: u16, val: u8) -> Result<(), Refusal> {
        // SAFETY: pointer and length are the slice's, and `&mut` keeps everybody else from it.
        Refusal::check(unsafe { raw::molbitak_prg_poke(self.state, image.as_mut_ptr(), image.len(), addr, val) })
    }

    /// A byte stored by the PPU, as [`Board::prg_poke`].
    ///
    /// # Errors
    /// [`Refusal::ImageLength`] where the image has not the length of the board's layout.
    pub fn chr_poke(&self, image: &mut [u8], addr: u16, val: u8) -> Result<(), Refusal> {
        // SAFETY: pointer and length are the slice's, and `&mut` keeps everybody else from it.
        Refusal::check(unsafe { raw::molbitak_chr_poke(self.state, image.as_mut_ptr(), image.len(), addr, val) })
    }
}

/// The page of a view that is not refused.
fn part(image: &[u8], view: ViewC) -> Result<&[u8], Refusal> {
    Refusal::check(view.refusal)?;
    Ok(&image[view.offset..view.offset + Page::SIZE])
}

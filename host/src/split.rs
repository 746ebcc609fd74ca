//! Views of an image that is kept in two buffers, and pokes into the second.
use crate::{Board, Page, Refusal, layout::SplitViewC, raw};

impl Board {
    /// The length of the first of two buffers: the image up to what can be written, `image[..rom_len]`. That is 1,024 zero bytes, PRG ROM
    /// and CHR ROM, each in whole KiB, and not the bare ROM file.
    ///
    /// ```
    /// # use molbitak::*;
    /// let cart = Cart { mapper_num: 153, prg_rom_size: 32_768, chr_ram_size: 8192, prg_ram_size: 8192, ..Cart::default() };
    /// let board = Board::load(&cart)?;
    /// assert_eq!((board.rom_len(), board.ram_len(), board.image_len()), (33_792, 18_432, 52_224));
    /// # Ok::<(), Refusal>(())
    /// ```
    #[must_use]
    pub fn rom_len(&self) -> usize {
        raw::molbitak_ram_start(self.state.bandai.cart) as usize
    }

    /// The length of the second of two buffers: what can be written, `image[rom_len..]`.
    #[must_use]
    pub fn ram_len(&self) -> usize {
        self.image_len() - self.rom_len()
    }

    /// The 1,024 bytes that the CPU sees around an address, a part of `rom` or of `ram`. They are those of [`Board::prg_page`] on the two
    /// joined.
    ///
    /// ```
    /// # use molbitak::*;
    /// let cart = Cart { mapper_num: 16, prg_rom_size: 16_384, chr_ram_size: 8192, ..Cart::default() };
    /// let board = Board::load(&cart)?;
    /// let (rom, mut ram) = (vec![7; board.rom_len()], vec![0; board.ram_len()]);
    /// board.chr_poke_split(&rom, &mut ram, 0x0002, 9)?;
    /// assert_eq!(board.prg_page_split(&rom, &ram, 0x8000)?, [7; 1024]);
    /// assert_eq!(board.chr_page_split(&rom, &ram, 0x0000)?[..4], [0, 0, 9, 0]);
    /// # Ok::<(), Refusal>(())
    /// ```
    ///
    /// # Errors
    /// [`Refusal::ImageLength`] where `rom` has not [`Board::rom_len`] bytes or `ram` not [`Board::ram_len`], also where their sum is right.
    pub fn prg_page_split<'a>(&self, rom: &'a [u8], ram: &'a [u8], addr: u16) -> Result<&'a [u8], Refusal> {
        part(rom, ram, raw::molbitak_prg_view_split(self.state, rom.len(), ram.len(), addr))
    }

    /// The 1,024 bytes that the PPU sees around an address, counted modulo 16,384, as [`Board::prg_page_split`].
    ///
    /// # Errors
    /// As [`Board::prg_page_split`].
    pub fn chr_page_split<'a>(&self, rom: &'a [u8], ram: &'a [u8], addr: u16) -> Result<&'a [u8], Refusal> {
        part(rom, ram, raw::molbitak_chr_view_split(self.state, rom.len(), ram.len(), addr))
    }

    /// A byte stored by the CPU in `ram`. The two joined are then what [`Board::prg_poke`] leaves of the two joined. On a page that may not
    /// be written both stay as they are, and the call succeeds. Of `rom` only the length is used.
    ///
    /// # Errors
    /// As [`Board::prg_page_split`].
    pub fn prg_poke_split(&self, rom: &[u8], ram: &mut [u8], addr: u16, val: u8) -> Result<(), Refusal> {
        // SAFETY: pointer and length are the slice's, and `&mut` keeps everybody else from it.
        Refusal::check(unsafe { raw::molbitak_prg_poke_split(self.state, rom.len(), ram.as_mut_ptr(), ram.len(), addr, val) })
    }

    /// A byte stored by the PPU in `ram`, as [`Board::prg_poke_split`].
    ///
    /// # Errors
    /// As [`Board::prg_page_split`].
    pub fn chr_poke_split(&self, rom: &[u8], ram: &mut [u8], addr: u16, val: u8) -> Result<(), Refusal> {
        // SAFETY: pointer and length are the slice's, and `&mut` keeps everybody else from it.
        Refusal::check(unsafe { raw::molbitak_chr_poke_split(self.state, rom.len(), ram.as_mut_ptr(), ram.len(), addr, val) })
    }
}

/// The page of a view that is not refused.
fn part<'a>(rom: &'a [u8], ram: &'a [u8], view: SplitViewC) -> Result<&'a [u8], Refusal> {
    Refusal::check(view.refusal)?;
    let buffer = if view.in_ram { ram } else { rom };
    Ok(&buffer[view.offset..view.offset + Page::SIZE])
}

//! What a board is fitted from.

/// The description of a cartridge. The codes are kept as given, so that a wrong one can be refused.
///
/// CHR is the ROM, read-only, unless its size is 0; then the RAM, writable. The one not chosen takes no space.
#[derive(Clone, Copy, Debug, Default, PartialEq, Eq, Hash)]
#[repr(C)]
pub struct Cart {
    /// Bytes of PRG ROM.
    pub prg_rom_size: u32,
    /// Bytes of CHR ROM; 0 means CHR RAM.
    pub chr_rom_size: u32,
    /// Bytes of CHR RAM.
    pub chr_ram_size: u32,
    /// Bytes of PRG RAM. 256 on mapper 16 and 128 on mapper 157 say that an EEPROM is fitted.
    pub prg_ram_size: u32,
    /// Bytes that the image reserves for battery state outside PRG RAM.
    pub battery_ext_size: u32,
    /// Bytes of nametable RAM; 0 means 2,048.
    pub ciram_size: u32,
    /// Bytes of expansion RAM.
    pub ex_ram_size: u32,
    /// 16, 153, 157 or 159.
    pub mapper_num: u16,
    /// Any; 0, 4 and 5 matter, on mapper 16.
    pub submapper_num: u8,
    /// 1 if the header is NES 2.0, else 0.
    pub nes2: u8,
    /// [`Mirroring`], by its code.
    pub mirroring: u8,
    /// [`Access`], by its code.
    pub sram_access: u8,
    /// [`EepromRule`], by its code. Without an X24C02 it is kept and has no effect.
    pub eeprom_rule: u8,
}

/// How the four nametables show CIRAM.
#[derive(Clone, Copy, Debug, PartialEq, Eq, Hash)]
#[repr(u8)]
pub enum Mirroring {
    /// Side by side.
    Vertical = 0,
    /// One above the other.
    Horizontal = 1,
    /// The first screen in all four.
    SingleScreenA = 2,
    /// The second screen in all four.
    SingleScreenB = 3,
    /// Four screens.
    FourScreen = 4,
}

impl Mirroring {
    /// The mirroring of a code, 0 to 4.
    #[must_use]
    pub const fn of(code: u8) -> Option<Mirroring> {
        Some(match code {
            0 => Mirroring::Vertical,
            1 => Mirroring::Horizontal,
            2 => Mirroring::SingleScreenA,
            3 => Mirroring::SingleScreenB,
            4 => Mirroring::FourScreen,
            _ => return None,
        })
    }
}

/// Whether devices at 0x6000 to 0x7FFF answer reads, and whether register 13 reaches the EEPROMs: the Rust's `sram_access`.
#[derive(Clone, Copy, Debug, PartialEq, Eq, Hash)]
#[repr(u8)]
pub enum Access {
    /// Neither.
    None = 0,
    /// Reads.
    Read = 1,
    /// Register 13.
    Write = 2,
    /// Both.
    ReadWrite = 3,
    /// As the Rust's `load` sets it: None on 153, ReadWrite on 16 with a submapper other than 0 and 5, else Read.
    AsLoaded = 4,
}

/// What an X24C02 goes by. An X24C01 is not affected.
#[derive(Clone, Copy, Debug, PartialEq, Eq, Hash)]
#[repr(u8)]
pub enum EepromRule {
    /// As the Rust's `Eeprom::write`: low bits first, and no acknowledge clock after a write slave byte.
    Crate = 0,
    /// As Xicor's data sheet: high bits first, slave bytes 0xA0 and 0xA1, an acknowledge after every byte, written bytes within
    /// their four cells, and a read that ends where it is not acknowledged.
    Datasheet = 1,
}

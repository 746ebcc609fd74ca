//! The structs as they cross the boundary, field by field in the order of the Rattle source (crate `board_codes` and those below it).
//! Nothing compares the two sides by itself: the assertions below hold what C lays out, and tests/layout.rs asks the library for each
//! field.
use crate::{Cart, Digits, Event};

/// Size and alignment of a struct, then the offset of each of its fields in order.
macro_rules! laid_out {
    ($t:ty, $size:literal, $align:literal, $($field:ident $at:literal),+) => {
        const _: () = {
            assert!(::std::mem::size_of::<$t>() == $size && ::std::mem::align_of::<$t>() == $align);
            $(assert!(::std::mem::offset_of!($t, $field) == $at);)+
        };
    };
}
pub(crate) use laid_out;

/// The registers.
#[derive(Clone, Copy, Debug, Default, PartialEq, Eq)]
#[repr(C)]
pub struct Regs {
    /// The interrupt counter: counts down while counting is on.
    pub irq_counter: u16,
    /// What register 10 copies into the counter.
    pub irq_reload: u16,
    /// The PRG page at 0x8000, 0 to 15.
    pub prg_page: u8,
    /// The high PRG bank, 0 or 16.
    pub prg_bank_select: u8,
    /// The mirroring in force, 0 to 4.
    pub mirroring: u8,
    /// PRG RAM enabled.
    pub prg_ram_enabled: bool,
    /// Counting.
    pub irq_enabled: bool,
    /// An interrupt is pending.
    pub irq_pending: bool,
    /// The CHR registers.
    pub chr_regs: [u8; 8],
    /// The CHR banks.
    pub chr_banks: [u8; 8],
}

/// The card reader; its modules stand in the board.
#[derive(Clone, Copy, Debug, Default, PartialEq, Eq)]
#[repr(C)]
pub struct BarcodeReader {
    /// Clocks so far, at most 2^62.
    pub master_clock: u64,
    /// The clock at the last insertion.
    pub insert_cycle: u64,
    /// The card's number.
    pub new_barcode: u64,
    /// The card's digit count, at most 20.
    pub new_barcode_digit_count: u32,
    /// How many modules are shown, at most 160.
    pub module_count: u8,
}

/// An EEPROM without its memory. Each kind is its number, so no byte is undefined; a number that no kind has is refused with 12.
#[derive(Clone, Copy, Debug, Default, PartialEq, Eq)]
#[repr(C)]
pub struct EepromC {
    /// 1 X24C01, 2 X24C02.
    pub model: u8,
    /// 0 Idle, 1 Addr, 2 Read, 3 Write, 4 SendAck, 5 WaitAck, 6 ChipAddr.
    pub mode: u8,
    /// The same of the mode after an acknowledge.
    pub next_mode: u8,
    /// The slave byte.
    pub chip_addr: u8,
    /// The word address.
    pub addr: u8,
    /// The byte that is shifted in or out: the Rust's `data`.
    pub shift: u8,
    /// Bits so far, at most 8.
    pub counter: u8,
    /// The level given to the data line.
    pub output: u8,
    /// The clock line's last level.
    pub prev_scl: u8,
    /// The data line's last level.
    pub prev_sda: u8,
}

/// Both chips, and what is fitted.
#[derive(Clone, Copy, Debug, Default, PartialEq, Eq)]
#[repr(C)]
pub struct DevicesC {
    /// The standard EEPROM.
    pub standard_eeprom: EepromC,
    /// The extra EEPROM.
    pub extra_eeprom: EepromC,
    /// A reader is fitted.
    pub has_barcode_reader: bool,
    /// A standard EEPROM is fitted.
    pub has_standard_eeprom: bool,
    /// An extra EEPROM is fitted.
    pub has_extra_eeprom: bool,
}

/// The state: all of a board but its arrays.
#[derive(Clone, Copy, Debug, Default, PartialEq, Eq)]
#[repr(C)]
pub struct BandaiC {
    /// The card reader, all zeros where none is fitted.
    pub barcode_reader: BarcodeReader,
    /// The description as given.
    pub cart: Cart,
    /// The registers.
    pub regs: Regs,
    /// The chips.
    pub devices: DevicesC,
}

/// A board.
#[derive(Clone, Copy, Debug, PartialEq, Eq)]
#[repr(C)]
pub struct BoardC {
    /// The state: all but the arrays.
    pub bandai: BandaiC,
    /// The modules of the card that is shown: 8 light, 0 dark.
    pub modules: [u8; 160],
    /// The standard EEPROM's memory; an X24C01 has the first 128 bytes.
    pub standard_rom: [u8; 256],
    /// The extra EEPROM's memory.
    pub extra_rom: [u8; 256],
}

/// What fitting and reading a state file answer: the refusal or 0, and the board.
#[derive(Clone, Copy, Debug, PartialEq, Eq)]
#[repr(C)]
pub struct LoadedC {
    /// The refusal, or 0.
    pub refusal: u8,
    /// The board; where it is refused, the empty one.
    pub board: BoardC,
}

/// Where a view starts in the image.
#[derive(Clone, Copy, Debug, PartialEq, Eq)]
#[repr(C)]
pub struct ViewC {
    /// The page's first byte.
    pub offset: usize,
    /// The refusal, or 0.
    pub refusal: u8,
}

/// Where a view of two buffers starts in one of them.
#[derive(Clone, Copy, Debug, PartialEq, Eq)]
#[repr(C)]
pub struct SplitViewC {
    /// The page's first byte in its buffer.
    pub offset: usize,
    /// Whether the page lies in the second buffer.
    pub in_ram: bool,
    /// The refusal, or 0.
    pub refusal: u8,
}

/// What the check on a list of modules answers.
#[derive(Clone, Copy, Debug, PartialEq, Eq)]
#[repr(C)]
pub struct Decoded {
    /// The digits of the card; none where the list is refused.
    pub digits: Digits,
    /// The refusal, or 0.
    pub refusal: u8,
}

/// What the state file's writer answers.
#[derive(Clone, Copy, Debug, PartialEq, Eq)]
#[repr(C)]
pub struct Written {
    /// How many bytes were written.
    pub length: usize,
    /// The refusal, or 0.
    pub refusal: u8,
}

/// What a session gives.
#[derive(Clone, Copy, Debug, PartialEq, Eq)]
#[repr(C)]
pub struct SessionC {
    /// The board after the last record.
    pub board: BoardC,
    /// How many records the list has.
    pub records: usize,
    /// How many of them were refused.
    pub refused: usize,
    /// The refusal of the session as a whole, or 0.
    pub refusal: u8,
}

laid_out!(Cart, 36, 4, prg_rom_size 0, chr_rom_size 4, chr_ram_size 8, prg_ram_size 12, battery_ext_size 16, ciram_size 20,
    ex_ram_size 24, mapper_num 28, submapper_num 30, nes2 31, mirroring 32, sram_access 33, eeprom_rule 34);
laid_out!(Event, 24, 8, number 0, count 8, address 12, kind 14, value 15, chip 16, scl 17, sda 18, unused 19);
laid_out!(Regs, 26, 2, irq_counter 0, irq_reload 2, prg_page 4, prg_bank_select 5, mirroring 6, prg_ram_enabled 7, irq_enabled 8,
    irq_pending 9, chr_regs 10, chr_banks 18);
laid_out!(BarcodeReader, 32, 8, master_clock 0, insert_cycle 8, new_barcode 16, new_barcode_digit_count 24, module_count 28);
laid_out!(EepromC, 10, 1, model 0, mode 1, next_mode 2, chip_addr 3, addr 4, shift 5, counter 6, output 7, prev_scl 8, prev_sda 9);
laid_out!(DevicesC, 23, 1, standard_eeprom 0, extra_eeprom 10, has_barcode_reader 20, has_standard_eeprom 21, has_extra_eeprom 22);
laid_out!(BandaiC, 120, 8, barcode_reader 0, cart 32, regs 68, devices 94);
laid_out!(BoardC, 792, 8, bandai 0, modules 120, standard_rom 280, extra_rom 536);
laid_out!(LoadedC, 800, 8, refusal 0, board 8);
laid_out!(ViewC, 16, 8, offset 0, refusal 8);
laid_out!(SplitViewC, 16, 8, offset 0, in_ram 8, refusal 9);
laid_out!(Decoded, 40, 8, digits 0, refusal 32);
laid_out!(Written, 16, 8, length 0, refusal 8);
laid_out!(SessionC, 816, 8, board 0, records 792, refused 800, refusal 808);

impl BoardC {
    /// Every number 0. No kind has the code 0 for its model, so no call takes this board.
    #[must_use]
    pub fn zeros() -> BoardC {
        BoardC { bandai: BandaiC::default(), modules: [0; 160], standard_rom: [0; 256], extra_rom: [0; 256] }
    }
}

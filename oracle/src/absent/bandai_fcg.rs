//! Stands where bandai_fcg.rs of the published crate would, when it was not found: the same public names, so that
//! whatever builds with it builds without it. `load` says what is missing; nothing else can be reached.
use super::memory::{Buffer, Memory};
use crate::{
    HOW_TO_HAVE_THEM,
    cart::Cart,
    mapper::{Error, Map, Mapper, MapperOps, Mirroring},
};

#[derive(Default, Debug, Clone)]
pub struct Regs {
    pub prg_page: u8,
    pub prg_bank_select: u8,
    pub prg_ram_enabled: bool,
    pub chr_regs: [u8; 8],
    pub irq_latch: u8,
    pub irq_counter: u16,
    pub irq_enabled: bool,
    pub irq_pending: bool,
    pub irq_reload: u16,
}

#[derive(Default, Debug, Clone)]
pub enum MemoryOp {
    None,
    Read,
    Write,
    #[default]
    ReadWrite,
}

#[derive(Debug, Clone)]
pub struct BandaiFCG {
    pub regs: Regs,
    pub has_chr_ram: bool,
    pub mirroring: Mirroring,
    pub mapper_num: u16,
    pub submapper_num: u8,
    pub barcode_reader: Option<BarcodeReader>,
    pub standard_eeprom: Option<Eeprom>,
    pub extra_eeprom: Option<Eeprom>,
    pub sram_access: MemoryOp,
    pub reg_access: MemoryOp,
    pub chr_banks: [u8; 8],
    pub prg_bank_count: usize,
}

impl BandaiFCG {
    pub fn load(_cart: &mut Cart) -> Result<Mapper, Error> {
        panic!("{HOW_TO_HAVE_THEM}")
    }

    pub const fn prg_ram_enabled(&self) -> bool {
        panic!("{}", HOW_TO_HAVE_THEM)
    }
}

impl Map for BandaiFCG {
    fn mapper_ops(&self) -> MapperOps {
        panic!("{HOW_TO_HAVE_THEM}")
    }

    fn mirroring(&self) -> Mirroring {
        panic!("{HOW_TO_HAVE_THEM}")
    }

    fn update_banks(&mut self, _memory: &mut Memory) {
        panic!("{HOW_TO_HAVE_THEM}")
    }
}

#[derive(Default, Debug, Clone)]
pub struct BarcodeReader {
    pub data: Box<[u8]>,
    pub master_clock: usize,
    pub insert_cycle: usize,
    pub new_barcode: u64,
    pub new_barcode_digit_count: u32,
}

impl BarcodeReader {
    pub fn new() -> Self {
        panic!("{HOW_TO_HAVE_THEM}")
    }

    pub const fn read(&self) -> u8 {
        panic!("{}", HOW_TO_HAVE_THEM)
    }

    pub const fn input(&mut self, _barcode: u64, _digit_count: u32) {
        panic!("{}", HOW_TO_HAVE_THEM)
    }

    pub fn barcode(&self) -> String {
        panic!("{HOW_TO_HAVE_THEM}")
    }

    pub fn init(&mut self) {
        panic!("{HOW_TO_HAVE_THEM}")
    }

    pub const fn clock(&mut self) {
        panic!("{}", HOW_TO_HAVE_THEM)
    }
}

#[derive(Debug, Copy, Clone)]
pub enum EepromModel {
    X24C01,
    X24C02,
}

#[derive(Default, Debug, Copy, Clone)]
pub enum EepromMode {
    #[default]
    Idle,
    Addr,
    Read,
    Write,
    SendAck,
    WaitAck,
    ChipAddr,
}

#[derive(Debug, Clone)]
pub struct Eeprom {
    pub model: EepromModel,
    pub mode: EepromMode,
    pub next_mode: EepromMode,
    pub chip_addr: u8,
    pub addr: u8,
    pub data: u8,
    pub counter: u8,
    pub output: u8,
    pub prev_scl: u8,
    pub prev_sda: u8,
    pub(crate) rom_data: Buffer<Box<[u8]>>,
}

impl Eeprom {
    pub fn new(_model: EepromModel) -> Self {
        panic!("{HOW_TO_HAVE_THEM}")
    }

    pub const fn read(&self) -> u8 {
        panic!("{}", HOW_TO_HAVE_THEM)
    }

    pub fn write(&mut self, _scl: u8, _sda: u8) {
        panic!("{HOW_TO_HAVE_THEM}")
    }

    pub fn write_scl(&mut self, _scl: u8) {
        panic!("{HOW_TO_HAVE_THEM}")
    }

    pub fn write_sda(&mut self, _sda: u8) {
        panic!("{HOW_TO_HAVE_THEM}")
    }
}

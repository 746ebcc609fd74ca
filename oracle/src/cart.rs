//! Stand-in for the crate's `cart`: the fields and accessors that `BandaiFCG::load` uses. The published accessors
//! decode a header or ask a database of games; here the answers are given.
use crate::{memory::Memory, ppu::Mirroring};

pub struct Cart {
    pub memory: Memory,
    pub chr_rom_size: usize,
    pub chr_ram_size: usize,
    pub prg_rom_size: usize,
    pub prg_ram_size: usize,
    pub mirroring: Mirroring,
    pub mapper_num: u16,
    pub submapper_num: u8,
    pub nes2: bool,
}

impl Cart {
    pub fn mirroring(&self) -> Mirroring {
        self.mirroring
    }

    pub fn mapper_num(&self) -> u16 {
        self.mapper_num
    }

    pub fn submapper_num(&self) -> u8 {
        self.submapper_num
    }

    pub const fn is_nes2(&self) -> bool {
        self.nes2
    }
}

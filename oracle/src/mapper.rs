//! Stand-in for the crate's `mapper`: the trait, the flags and the enum that bandai_fcg.rs names.
use crate::memory::Memory;
pub use crate::{
    ppu::Mirroring,
    published::bandai_fcg::{self, BandaiFCG},
};

#[derive(Debug)]
pub struct Error;

#[derive(Debug, Copy, Clone, PartialEq, Eq)]
pub struct MapperOps(u32);

impl MapperOps {
    pub const CLOCKED: Self = Self(1);
    pub const IRQ: Self = Self(2);
    pub const SERVES_PRG_READS: Self = Self(4);
}

impl std::ops::BitOr for MapperOps {
    type Output = Self;
    fn bitor(self, other: Self) -> Self {
        Self(self.0 | other.0)
    }
}

pub trait Map {
    fn mapper_ops(&self) -> MapperOps;
    fn mirroring(&self) -> Mirroring;
    fn irq_pending(&self) -> bool {
        false
    }
    fn prg_read(&mut self, _addr: u16) -> Option<u8> {
        None
    }
    fn prg_peek(&self, _addr: u16) -> Option<u8> {
        None
    }
    fn sync_battery(&self, _memory: &mut Memory) {}
    fn restore_battery(&mut self, _memory: &Memory) {}
    fn write_register(&mut self, _memory: &mut Memory, _addr: u16, _val: u8) {}
    fn update_banks(&mut self, _memory: &mut Memory) {}
    fn clock(&mut self) {}
}

/// The published enum has every board of the crate.
pub enum Mapper {
    BandaiFCG(Box<BandaiFCG>),
}

impl From<BandaiFCG> for Mapper {
    fn from(board: BandaiFCG) -> Self {
        Self::BandaiFCG(Box::new(board))
    }
}

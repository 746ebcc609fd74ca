//! Stands where memory.rs of the published crate would, when it was not found: the same public names.
use crate::{HOW_TO_HAVE_THEM, ppu::Mirroring};
use std::ops::{Deref, DerefMut};

pub const PAGE_SHIFT: usize = 10;
pub const PAGE_SIZE: usize = 1 << PAGE_SHIFT;
pub const PAGE_OFFSET_MASK: usize = PAGE_SIZE - 1;
pub const CHR_PAGES: usize = 0x4000 >> PAGE_SHIFT;
pub const PRG_PAGES: usize = 0x10000 >> PAGE_SHIFT;

#[derive(Debug, Copy, Clone, PartialEq, Eq)]
#[non_exhaustive]
pub enum Src {
    PrgRom,
    PrgRam,
    BatteryExt,
    Chr,
    CiRam,
    ExRam,
}

#[derive(Default, Debug, Copy, Clone, PartialEq, Eq)]
pub struct Page(u32);

impl Page {
    pub const UNMAPPED: Self = Self(0);

    pub const fn offset(self) -> usize {
        self.0 as usize
    }

    pub const fn is_writable(self) -> bool {
        false
    }
}

#[derive(Debug, Default, Copy, Clone, PartialEq, Eq)]
#[non_exhaustive]
pub struct MemoryLayout {
    pub prg_rom: usize,
    pub prg_ram: usize,
    pub battery_ext: usize,
    pub chr: usize,
    pub chr_writable: bool,
    pub ciram: usize,
    pub ex_ram: usize,
}

#[derive(Clone, Debug)]
pub struct Memory;

impl Memory {
    pub fn new(_layout: MemoryLayout) -> Self {
        panic!("{HOW_TO_HAVE_THEM}")
    }

    pub fn prg_peek(&self, _addr: u16) -> u8 {
        panic!("{HOW_TO_HAVE_THEM}")
    }

    pub fn prg_write(&mut self, _addr: u16, _val: u8) {
        panic!("{HOW_TO_HAVE_THEM}")
    }

    pub fn chr_peek(&self, _addr: u16) -> u8 {
        panic!("{HOW_TO_HAVE_THEM}")
    }

    pub fn chr_write(&mut self, _addr: u16, _val: u8) {
        panic!("{HOW_TO_HAVE_THEM}")
    }

    pub fn prg_writable(&self, _addr: u16) -> bool {
        panic!("{HOW_TO_HAVE_THEM}")
    }

    pub fn map_prg(&mut self, _addr: u16, _size: usize, _bank: i32, _src: Src) {
        panic!("{HOW_TO_HAVE_THEM}")
    }

    pub fn map_chr(&mut self, _addr: u16, _size: usize, _bank: i32, _src: Src) {
        panic!("{HOW_TO_HAVE_THEM}")
    }

    pub fn unmap_prg(&mut self, _addr: u16, _size: usize) {
        panic!("{HOW_TO_HAVE_THEM}")
    }

    pub fn unmap_chr(&mut self, _addr: u16, _size: usize) {
        panic!("{HOW_TO_HAVE_THEM}")
    }

    pub fn set_prg_writable(&mut self, _addr: u16, _size: usize, _writable: bool) {
        panic!("{HOW_TO_HAVE_THEM}")
    }

    pub fn region_peek(&self, _src: Src, _offset: usize) -> u8 {
        panic!("{HOW_TO_HAVE_THEM}")
    }

    pub fn region_write(&mut self, _src: Src, _offset: usize, _val: u8) {
        panic!("{HOW_TO_HAVE_THEM}")
    }

    pub fn set_battery_ext_len(&mut self, _len: usize) {
        panic!("{HOW_TO_HAVE_THEM}")
    }

    pub fn sram(&self) -> &[u8] {
        panic!("{HOW_TO_HAVE_THEM}")
    }

    pub fn sram_mut(&mut self) -> &mut [u8] {
        panic!("{HOW_TO_HAVE_THEM}")
    }

    pub fn prg_offset(&self, _addr: u16) -> Option<usize> {
        panic!("{HOW_TO_HAVE_THEM}")
    }

    pub fn set_mirroring(&mut self, _mirroring: Mirroring) {
        panic!("{HOW_TO_HAVE_THEM}")
    }

    pub fn region_mut(&mut self, _src: Src) -> &mut [u8] {
        panic!("{HOW_TO_HAVE_THEM}")
    }

    pub fn region_ref(&self, _src: Src) -> &[u8] {
        panic!("{HOW_TO_HAVE_THEM}")
    }

    pub fn ram(&self) -> &[u8] {
        panic!("{HOW_TO_HAVE_THEM}")
    }

    pub fn ram_mut(&mut self) -> &mut [u8] {
        panic!("{HOW_TO_HAVE_THEM}")
    }

    pub const fn len(&self) -> usize {
        panic!("{}", HOW_TO_HAVE_THEM)
    }

    pub const fn is_empty(&self) -> bool {
        panic!("{}", HOW_TO_HAVE_THEM)
    }

    pub const fn prg_pages(&self) -> &[Page; PRG_PAGES] {
        panic!("{}", HOW_TO_HAVE_THEM)
    }

    pub const fn chr_pages(&self) -> &[Page; CHR_PAGES] {
        panic!("{}", HOW_TO_HAVE_THEM)
    }
}

#[derive(Debug, Clone)]
pub(crate) struct Buffer<D> {
    data: D,
}

impl<D> Deref for Buffer<D> {
    type Target = D;
    fn deref(&self) -> &D {
        &self.data
    }
}

impl<D> DerefMut for Buffer<D> {
    fn deref_mut(&mut self) -> &mut D {
        &mut self.data
    }
}

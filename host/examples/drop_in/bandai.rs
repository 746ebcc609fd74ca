//! What to put in place of the crate's `BandaiFCG`: its `Map` methods over [`molbitak::Board`].
use molbitak::{Access, Board, EepromRule, Page};
use std::ops::Range;
use tetanes_core::{
    cart::Cart,
    mapper::{Map, MapperOps, Mirroring},
    memory::{Memory, Src},
};

/// In place of `BandaiFCG`.
pub struct Bandai {
    pub board: Board,
    regions: Regions,
}

/// Where the board's regions lie in the crate's memory, for the page entries.
struct Regions {
    prg_rom: Range<usize>,
    prg_ram: Range<usize>,
    chr: Range<usize>,
    ciram: Range<usize>,
}

/// What the board is fitted from, of the crate's cart. The sizes that the cart does not name are those of its memory's regions.
fn description(cart: &Cart, access: Access) -> molbitak::Cart {
    let memory = &cart.memory;
    let len = |src| memory.region_ref(src).len();
    let (ciram, ex_ram) = (len(Src::CiRam), len(Src::ExRam));
    // what is left of the memory is reserved for the battery
    let others = Page::SIZE + len(Src::PrgRom) + len(Src::PrgRam) + len(Src::Chr) + ciram + ex_ram;
    molbitak::Cart {
        prg_rom_size: cart.prg_rom_size as u32,
        chr_rom_size: cart.chr_rom_size as u32,
        chr_ram_size: cart.chr_ram_size as u32,
        prg_ram_size: cart.prg_ram_size as u32,
        battery_ext_size: (memory.len() - others) as u32,
        ciram_size: ciram as u32,
        ex_ram_size: ex_ram as u32,
        mapper_num: cart.mapper_num(),
        submapper_num: cart.submapper_num(),
        nes2: u8::from(cart.is_nes2()),
        mirroring: cart.mirroring() as u8,
        sram_access: access as u8,
        eeprom_rule: EepromRule::Crate as u8,
    }
}

impl Regions {
    /// As `Memory::new` lays them out: page 0, the ROMs, then what can be written.
    fn of(memory: &Memory, d: &molbitak::Cart) -> Regions {
        let mut at = Page::SIZE;
        let mut next = |len: usize| {
            at += len;
            at - len..at
        };
        let len = |src| memory.region_ref(src).len();
        let chr_is_ram = d.chr_rom_size == 0;
        let prg_rom = next(len(Src::PrgRom));
        let chr_rom = next(if chr_is_ram { 0 } else { len(Src::Chr) });
        let prg_ram = next(len(Src::PrgRam));
        next(d.battery_ext_size as usize);
        let chr_ram = next(if chr_is_ram { len(Src::Chr) } else { 0 });
        let ciram = next(len(Src::CiRam));
        Regions { prg_rom, prg_ram, chr: if chr_is_ram { chr_ram } else { chr_rom }, ciram }
    }

    /// The regions that a page may lie in.
    fn mapped(&self) -> [(Src, &Range<usize>); 4] {
        [(Src::PrgRom, &self.prg_rom), (Src::PrgRam, &self.prg_ram), (Src::Chr, &self.chr), (Src::CiRam, &self.ciram)]
    }

    /// The region of a page, and the page's number in it; none for an unmapped page.
    fn find(&self, page: Page) -> Option<(Src, i32)> {
        let (src, region) = self.mapped().into_iter().find(|(_, region)| region.contains(&page.offset()))?;
        Some((src, ((page.offset() - region.start) / Page::SIZE) as i32))
    }
}

impl Bandai {
    /// `Access::AsLoaded` is what `BandaiFCG::load` does; the others are what a host sets `sram_access` to after it.
    pub fn load(cart: &mut Cart, access: Access) -> Result<Bandai, molbitak::Refusal> {
        let description = description(cart, access);
        let board = Board::load(&description)?;
        let mut bandai = Bandai { regions: Regions::of(&cart.memory, &description), board };
        cart.memory.set_battery_ext_len(bandai.battery().map(<[u8]>::len).sum());
        bandai.update_banks(&mut cart.memory);
        Ok(bandai)
    }

    /// The memories of the chips that are fitted.
    fn battery(&self) -> impl Iterator<Item = &[u8]> {
        [self.board.standard_eeprom(), self.board.extra_eeprom()].into_iter().flatten().map(|(_, rom)| rom)
    }
}

/// The memory of a host that keeps what is read-only in one buffer and what can be written in another.
#[derive(Debug, PartialEq)]
pub struct TwoBuffers {
    rom: Vec<u8>,
    ram: Vec<u8>,
}

impl TwoBuffers {
    /// A copy of the regions of the crate's memory that pages lie in.
    pub fn of(bandai: &Bandai, memory: &Memory) -> TwoBuffers {
        let mut rom = vec![0; bandai.board.image_len()];
        for (src, region) in bandai.regions.mapped() {
            rom[region.clone()].copy_from_slice(memory.region_ref(src));
        }
        let ram = rom.split_off(bandai.board.rom_len());
        TwoBuffers { rom, ram }
    }

    /// The byte that the CPU sees at an address.
    pub fn prg_peek(&self, board: &Board, addr: u16) -> u8 {
        board.prg_page_split(&self.rom, &self.ram, addr).expect(FIT)[usize::from(addr) % Page::SIZE]
    }

    /// The byte that the PPU sees at an address.
    pub fn chr_peek(&self, board: &Board, addr: u16) -> u8 {
        board.chr_page_split(&self.rom, &self.ram, addr).expect(FIT)[usize::from(addr) % Page::SIZE]
    }

    /// A byte stored by the CPU.
    pub fn prg_write(&mut self, board: &Board, addr: u16, val: u8) {
        board.prg_poke_split(&self.rom, &mut self.ram, addr, val).expect(FIT);
    }

    /// A byte stored by the PPU.
    pub fn chr_write(&mut self, board: &Board, addr: u16, val: u8) {
        board.chr_poke_split(&self.rom, &mut self.ram, addr, val).expect(FIT);
    }
}

const FIT: &str = "both buffers have the board's lengths";

impl Map for Bandai {
    fn mapper_ops(&self) -> MapperOps {
        MapperOps::CLOCKED | MapperOps::IRQ | MapperOps::SERVES_PRG_READS
    }

    fn mirroring(&self) -> Mirroring {
        match self.board.mirroring() {
            molbitak::Mirroring::Vertical => Mirroring::Vertical,
            molbitak::Mirroring::Horizontal => Mirroring::Horizontal,
            molbitak::Mirroring::SingleScreenA => Mirroring::SingleScreenA,
            molbitak::Mirroring::SingleScreenB => Mirroring::SingleScreenB,
            molbitak::Mirroring::FourScreen => Mirroring::FourScreen,
        }
    }

    fn irq_pending(&self) -> bool {
        self.board.irq_pending()
    }

    fn prg_read(&mut self, addr: u16) -> Option<u8> {
        self.prg_peek(addr)
    }

    fn prg_peek(&self, addr: u16) -> Option<u8> {
        self.board.prg_peek(addr)
    }

    fn sync_battery(&self, memory: &mut Memory) {
        let mut ext = memory.region_mut(Src::BatteryExt);
        for rom in self.battery() {
            let (front, rest) = ext.split_at_mut(rom.len());
            front.copy_from_slice(rom);
            ext = rest;
        }
    }

    fn restore_battery(&mut self, memory: &Memory) {
        // through the state file, where a chip's memory is the last part of its body (kind 4 the standard chip, 5 the extra one)
        let mut file = Vec::new();
        self.board.save(&mut file);
        let mut ext = memory.region_ref(Src::BatteryExt);
        for entry in 0..usize::from(file[0]) {
            let entry = 1 + 6 * entry;
            let word = |at: usize| usize::from(u16::from_le_bytes([file[at], file[at + 1]]));
            let (kind, length, start) = (file[entry], word(entry + 2), word(entry + 4));
            if kind >= 4 {
                let (front, rest) = ext.split_at(length - 10);
                file[start + 10..start + length].copy_from_slice(front);
                ext = rest;
            }
        }
        self.board = Board::resume(&file).expect("a chip's memory may hold any bytes");
    }

    fn write_register(&mut self, memory: &mut Memory, addr: u16, val: u8) {
        self.board.write_register(addr, val);
        self.update_banks(memory);
    }

    fn update_banks(&mut self, memory: &mut Memory) {
        let tables = self.board.page_tables();
        // only the entries that are not there yet
        for (slot, page) in tables.prg.into_iter().enumerate() {
            let now = memory.prg_pages()[slot];
            if (now.offset(), now.is_writable()) != (page.offset(), page.is_writable()) {
                let addr = (slot * Page::SIZE) as u16;
                match self.regions.find(page) {
                    Some((src, number)) => memory.map_prg(addr, Page::SIZE, number, src),
                    None => memory.unmap_prg(addr, Page::SIZE),
                }
            }
        }
        for (slot, page) in tables.chr.into_iter().enumerate() {
            let now = memory.chr_pages()[slot];
            if (now.offset(), now.is_writable()) != (page.offset(), page.is_writable()) {
                let addr = (slot * Page::SIZE) as u16;
                match self.regions.find(page) {
                    Some((src, number)) => memory.map_chr(addr, Page::SIZE, number, src),
                    None => memory.unmap_chr(addr, Page::SIZE),
                }
            }
        }
    }

    fn clock(&mut self) {
        // refused only where the reader's clock is at 2^62; the board then stays as it is
        let _ = self.board.clock();
    }
}

//! What documents 01 and 02 put over the published board: descriptions, event records and their refusals, of which the
//! crate has none.
use crate::{
    cart::Cart,
    mapper::{BandaiFCG, Map, Mapper, Mirroring, bandai_fcg::MemoryOp},
    memory::{Memory, MemoryLayout, PAGE_SIZE, Page, Src},
    state::CLOCK_LIMIT,
};

/// A description: what is fitted.
#[derive(Clone, Debug, Default, PartialEq, Eq)]
pub struct Desc {
    pub mapper: u16,
    pub sub: u8,
    pub nes2: u8,
    pub mir: u8,
    /// 0 None, 1 Read, 2 Write, 3 ReadWrite, 4 as `load` sets it.
    pub access: u8,
    /// PRG ROM, CHR ROM, CHR RAM, PRG RAM, battery extension, CIRAM, expansion RAM.
    pub sizes: [u32; 7],
    /// The rule of an X24C02: 0 the crate's, 1 its datasheet's.
    pub rule: u8,
}

/// An event record.
#[derive(Clone, Copy, Debug, Default, PartialEq, Eq)]
pub struct Event {
    /// 0 register write, 1 device read, 2 clocks, 3 card, 4 insert, 5 lines.
    pub kind: u8,
    pub addr: u16,
    pub value: u8,
    pub count: u32,
    pub number: u64,
    pub chip: u8,
    pub scl: u8,
    pub sda: u8,
}

/// The published board with its memory, and the description that it was fitted from.
pub struct Board {
    pub desc: Desc,
    pub b: BandaiFCG,
    pub mem: Memory,
    /// The published `load` panics on this description: the battery extension has no room for the chips. The board
    /// was loaded over a memory with room, and then mapped over the one described.
    pub load_panics: bool,
}

/// The mirroring of a code, four screens for any that is not listed.
pub fn mir(code: u8) -> Mirroring {
    match code {
        0 => Mirroring::Vertical,
        1 => Mirroring::Horizontal,
        2 => Mirroring::SingleScreenA,
        3 => Mirroring::SingleScreenB,
        _ => Mirroring::FourScreen,
    }
}

impl Desc {
    /// The number that fitting this gives.
    pub fn refusal(&self) -> u8 {
        if ![16, 153, 157, 159].contains(&self.mapper) {
            1
        } else if self.sizes.iter().any(|size| *size > 16_777_216) {
            2
        } else if self.nes2 > 1 || self.mir > 4 || self.access > 4 {
            3
        } else if self.rule > 1 {
            17
        } else {
            0
        }
    }

    /// Where what can be written starts in the image: 1,024 zero bytes, PRG ROM and CHR ROM lie before, each in whole pages.
    pub fn ram_start(&self) -> usize {
        [1024, self.sizes[0], self.sizes[1]].iter().map(|size| (*size as usize).div_ceil(1024) * 1024).sum()
    }

    fn layout(&self) -> MemoryLayout {
        let [prg_rom, chr_rom, chr_ram, prg_ram, battery_ext, ciram, ex_ram] = self.sizes.map(|size| size as usize);
        let chr_writable = chr_rom == 0;
        let chr = if chr_writable { chr_ram } else { chr_rom };
        MemoryLayout { prg_rom, prg_ram, battery_ext, chr, chr_writable, ciram, ex_ram }
    }

    fn load(&self, layout: MemoryLayout) -> (BandaiFCG, Memory) {
        let [prg_rom_size, chr_rom_size, chr_ram_size, prg_ram_size, ..] = self.sizes.map(|size| size as usize);
        let mut cart = Cart {
            memory: Memory::new(layout),
            chr_rom_size,
            chr_ram_size,
            prg_rom_size,
            prg_ram_size,
            mirroring: mir(self.mir),
            mapper_num: self.mapper,
            submapper_num: self.sub,
            nes2: self.nes2 != 0,
        };
        let Ok(Mapper::BandaiFCG(board)) = BandaiFCG::load(&mut cart) else {
            panic!("load answered an error, which the published one never does")
        };
        (*board, cart.memory)
    }

    /// The fitted board, or the refusal.
    pub fn fit(&self) -> Result<Board, u8> {
        let refusal = self.refusal();
        if refusal != 0 {
            return Err(refusal);
        }
        let layout = self.layout();
        let mut loaded = None;
        if layout.battery_ext == 0 {
            // `load` asserts that the battery extension holds the chips' bytes, and any but an empty one does.
            let (mut b, _) = self.load(MemoryLayout { battery_ext: PAGE_SIZE, ..layout });
            if b.standard_eeprom.is_some() || b.extra_eeprom.is_some() {
                let mut mem = Memory::new(layout);
                b.update_banks(&mut mem);
                loaded = Some((b, mem));
            }
        }
        let load_panics = loaded.is_some();
        let (mut b, mem) = loaded.unwrap_or_else(|| self.load(layout));
        // 0 to 3 mean that the host sets it afterwards.
        match self.access {
            0 => b.sram_access = MemoryOp::None,
            1 => b.sram_access = MemoryOp::Read,
            2 => b.sram_access = MemoryOp::Write,
            3 => b.sram_access = MemoryOp::ReadWrite,
            _ => (),
        }
        Ok(Board { desc: self.clone(), b, mem, load_panics })
    }
}

impl Board {
    /// The number that an event gets, 0 where it is accepted.
    pub fn refusal(&self, e: &Event) -> u8 {
        match e.kind {
            0 | 1 => 0,
            2 => match &self.b.barcode_reader {
                Some(reader) if reader.master_clock as u64 + u64::from(e.count) > CLOCK_LIMIT => 6,
                _ => 0,
            },
            3 | 4 if self.b.barcode_reader.is_none() => 4,
            3 if e.count > 20 => 5,
            3 | 4 => 0,
            5 => {
                let fitted = match e.chip {
                    0 => self.b.standard_eeprom.is_some(),
                    1 => self.b.extra_eeprom.is_some(),
                    _ => false,
                };
                if !fitted {
                    8
                } else if e.scl > 1 || e.sda > 1 {
                    7
                } else {
                    0
                }
            }
            _ => 13,
        }
    }

    /// Runs an event by the published methods and gives its three answer bytes. Where the standard chip is under rule 1,
    /// its step is the datasheet's.
    pub fn event(&mut self, e: &Event) -> [u8; 3] {
        let refusal = self.refusal(e);
        // register writes and line changes are all that reach a chip
        let chip = if matches!(e.kind, 0 | 5) { self.datasheet_chip() } else { None };
        let mut read = None;
        match e.kind {
            _ if refusal != 0 => (),
            0 => self.b.write_register(&mut self.mem, e.addr, e.value),
            1 => read = self.b.prg_peek(e.addr),
            2 => {
                for _ in 0..e.count {
                    self.b.clock();
                }
            }
            3 => self.b.barcode_reader.as_mut().unwrap().input(e.number, e.count),
            4 => self.b.barcode_reader.as_mut().unwrap().init(),
            _ => {
                let chip = if e.chip == 0 { &mut self.b.standard_eeprom } else { &mut self.b.extra_eeprom };
                chip.as_mut().unwrap().write(e.scl, e.sda);
            }
        }
        if let Some(chip) = chip {
            self.step_by_datasheet(chip);
        }
        let flags = u8::from(read.is_some()) + 2 * u8::from(self.b.irq_pending());
        [refusal, flags, read.unwrap_or(0)]
    }

    /// The module read: the module's number, the clocks spent in it, its light; zeros without a reader. The light is
    /// the published `read`'s. The crate has no call for the other two: they are its own clocks since the insertion,
    /// 1,000 to a module.
    pub fn module_read(&self) -> (u64, u16, u8) {
        let Some(reader) = &self.b.barcode_reader else { return (0, 0, 0) };
        let elapsed = reader.master_clock as u64 - reader.insert_cycle as u64;
        (elapsed / 1000, (elapsed % 1000) as u16, reader.read())
    }

    /// The entries of both page tables: the offset, with bit 31 where the page is writable.
    pub fn entries(&self) -> (Vec<u32>, Vec<u32>) {
        let entry = |page: &Page| page.offset() as u32 | u32::from(page.is_writable()) << 31;
        (self.mem.prg_pages().iter().map(entry).collect(), self.mem.chr_pages().iter().map(entry).collect())
    }

    // ------------------------------------------------------------ the image

    /// Puts an image, as long as the memory, into it. The first 1,024 bytes cannot be set, and are 0 in both.
    pub fn set_image(&mut self, image: &[u8]) {
        assert_eq!(image.len(), self.mem.len());
        assert!(image[..PAGE_SIZE].iter().all(|byte| *byte == 0));
        let ram_start = image.len() - self.mem.ram().len();
        let prg = self.mem.region_mut(Src::PrgRom);
        let prg_end = PAGE_SIZE + prg.len();
        prg.copy_from_slice(&image[PAGE_SIZE..prg_end]);
        if self.desc.sizes[1] != 0 {
            self.mem.region_mut(Src::Chr).copy_from_slice(&image[prg_end..ram_start]);
        }
        self.mem.ram_mut().copy_from_slice(&image[ram_start..]);
    }

    /// The memory as one image.
    pub fn image(&self) -> Vec<u8> {
        let mut image = vec![0; PAGE_SIZE];
        image.extend(self.mem.region_ref(Src::PrgRom));
        if self.desc.sizes[1] != 0 {
            image.extend(self.mem.region_ref(Src::Chr));
        }
        image.extend(self.mem.ram());
        assert_eq!(image.len(), self.mem.len());
        image
    }

    /// Fills the memory by offset; see [`pat`].
    pub fn pattern(&mut self) {
        let image: Vec<u8> = (0..self.mem.len()).map(pat).collect();
        self.set_image(&image);
    }
}

/// The byte at an offset of an image made for tests: 0 in the first 1,024, then one that depends on the offset.
pub fn pat(offset: usize) -> u8 {
    if offset < PAGE_SIZE { 0 } else { ((offset as u64).wrapping_mul(2_654_435_761) >> 13) as u8 }
}

/// Two lower-case digits a byte.
pub fn hex(bytes: &[u8]) -> String {
    const DIGITS: &[u8; 16] = b"0123456789abcdef";
    let digit = |d: u8| char::from(DIGITS[usize::from(d)]);
    bytes.iter().flat_map(|byte| [digit(byte >> 4), digit(byte & 15)]).collect()
}

/// The bytes of an even number of hexadecimal digits of either case; nothing for any other text.
pub fn unhex(text: &[u8]) -> Option<Vec<u8>> {
    let digit = |d: u8| char::from(d).to_digit(16).map(|d| d as u8);
    let pair = |pair: &[u8]| Some(digit(pair[0])? << 4 | digit(pair[1])?);
    if text.len().is_multiple_of(2) { text.chunks(2).map(pair).collect() } else { None }
}

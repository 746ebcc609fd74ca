//! The state of a board as plain numbers, and when it is valid, after documents 01 and 02 alone: nothing here knows of the
//! published code.

use crate::host::Desc;

/// The largest value of the reader's clock.
pub const CLOCK_LIMIT: u64 = 1 << 62;

#[derive(Clone, Debug, Default, PartialEq, Eq)]
pub struct Registers {
    pub prg_page: u8,
    pub high_bank: u8,
    pub ram_enabled: u8,
    pub chr_regs: [u8; 8],
    pub counter: u16,
    pub counting: u8,
    pub pending: u8,
    pub reload: u16,
    pub mirroring: u8,
    pub chr_banks: [u8; 8],
}

#[derive(Clone, Debug, Default, PartialEq, Eq)]
pub struct Reader {
    pub clock: u64,
    pub insert_clock: u64,
    pub number: u64,
    pub digits: u8,
    /// 01's stripes, 0 dark and 8 light.
    pub modules: Vec<u8>,
}

#[derive(Clone, Debug, Default, PartialEq, Eq)]
pub struct Chip {
    /// 1 X24C01, 2 X24C02.
    pub model: u8,
    /// 0 to 6 in `EepromMode`'s order, as is `next_mode`.
    pub mode: u8,
    pub next_mode: u8,
    pub chip_addr: u8,
    pub addr: u8,
    pub data: u8,
    pub counter: u8,
    pub output: u8,
    pub scl: u8,
    pub sda: u8,
    /// 128 or 256.
    pub cells: Vec<u8>,
}

/// A part that is not fitted is not there; that it is all zeros in memory has nothing to do with the file.
#[derive(Clone, Debug, PartialEq, Eq)]
pub struct State {
    pub desc: Desc,
    pub regs: Registers,
    pub reader: Option<Reader>,
    pub standard: Option<Chip>,
    pub extra: Option<Chip>,
}

/// Which parts a description fits: the reader, the standard chip's model, the extra chip's model.
pub struct Fitted {
    pub reader: bool,
    pub standard: Option<u8>,
    pub extra: Option<u8>,
}

pub fn fitted(d: &Desc) -> Fitted {
    let prg_ram = d.sizes[3];
    let (standard, extra) = match d.mapper {
        16 if (d.sub == 0 || d.sub == 5) && prg_ram == 256 => (Some(2), None),
        157 if d.nes2 == 0 || prg_ram == 128 => (Some(2), Some(1)),
        157 => (Some(2), None),
        159 => (Some(1), None),
        _ => (None, None),
    };
    Fitted { reader: d.mapper == 157, standard, extra }
}

/// How many cells a model has.
pub fn cells_of(model: u8) -> usize {
    if model == 1 { 128 } else { 256 }
}

impl Registers {
    fn is_valid(&self) -> bool {
        let flags = [self.ram_enabled, self.counting, self.pending];
        flags.iter().all(|f| *f <= 1)
            && self.prg_page <= 15
            && (self.high_bank == 0 || self.high_bank == 16)
            && self.mirroring <= 4
    }
}

impl Reader {
    fn is_valid(&self) -> bool {
        self.insert_clock <= self.clock
            && self.clock <= CLOCK_LIMIT
            && self.digits <= 20
            && self.modules.len() <= 160
            && self.modules.iter().all(|m| *m == 0 || *m == 8)
    }
}

impl Chip {
    fn is_valid(&self, model: u8) -> bool {
        let lines = [self.output, self.scl, self.sda];
        let modes = if model == 1 { 5 } else { 6 };
        self.model == model
            && self.cells.len() == cells_of(model)
            && self.mode <= modes
            && self.next_mode <= modes
            && lines.iter().all(|l| *l <= 1)
            && self.counter <= 8
            && (model == 2 || self.addr <= 127)
    }
}

impl State {
    pub fn is_valid(&self) -> bool {
        let parts = fitted(&self.desc);
        let chip = |chip: &Option<Chip>, model: Option<u8>| match (chip, model) {
            (Some(chip), Some(model)) => chip.is_valid(model),
            (None, None) => true,
            _ => false,
        };
        self.desc.refusal() == 0
            && self.regs.is_valid()
            && self.reader.is_some() == parts.reader
            && self.reader.iter().all(Reader::is_valid)
            && chip(&self.standard, parts.standard)
            && chip(&self.extra, parts.extra)
    }
}

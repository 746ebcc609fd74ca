//! Transactions on the two chips, whole and broken, through every port; and every transition of a chip.
use crate::{boards, rng::Rng, writer::Script};
use tetanes_core::{
    host::Desc,
    state::{Chip, Registers, State, cells_of},
};

/// The way to a chip's lines.
#[derive(Clone, Copy, PartialEq, Eq)]
pub enum Port {
    /// `lines` events of a chip.
    Lines(u8),
    /// Register 13: the standard chip's SCL and SDA, the extra chip's SDA.
    Register13,
    /// The extra chip: SCL by registers 0 to 3, SDA by register 13.
    ExtraRegisters,
}

/// Drives chips. The levels are what the driver last set, not what the board holds: a shut port lets them part.
pub struct Driver {
    levels: [(u8, u8); 2],
    /// The first address of the window that registers are written in.
    pub window: u16,
    /// One step in so many goes wrong; 0 for none.
    pub breaks: u64,
    /// The rule of an X24C02: 1 wants high bits first, and an acknowledge clock after every byte.
    pub rule: u8,
}

impl Driver {
    pub fn new() -> Self {
        Self { levels: [(0, 0); 2], window: 0x8000, breaks: 0, rule: 0 }
    }

    fn breaks(&self, rng: &mut Rng) -> bool {
        self.breaks != 0 && rng.once_in(self.breaks)
    }

    pub fn set(&mut self, script: &mut Script, rng: &mut Rng, port: Port, scl: u8, sda: u8) {
        match port {
            Port::Lines(chip) => {
                script.lines(chip, scl, sda);
                self.levels[usize::from(chip & 1)] = (scl, sda);
            }
            Port::Register13 => {
                script.write(self.window | 13, scl << 5 | sda << 6 | rng.byte() & 0x9F);
                self.levels[0] = (scl, sda);
                self.levels[1].1 = sda;
            }
            Port::ExtraRegisters => {
                if self.levels[1].1 != sda {
                    script.write(self.window | 13, self.levels[0].0 << 5 | sda << 6);
                    self.levels[0].1 = sda;
                }
                if self.levels[1].0 != scl {
                    script.write(self.window | rng.below(4) as u16, scl << 3 | rng.byte() & 0xF7);
                }
                self.levels[1] = (scl, sda);
            }
        }
    }

    fn start(&mut self, script: &mut Script, rng: &mut Rng, port: Port) {
        for (scl, sda) in [(0, 1), (1, 1), (1, 0), (0, 0)] {
            if !self.breaks(rng) {
                self.set(script, rng, port, scl, sda);
            }
        }
    }

    fn stop(&mut self, script: &mut Script, rng: &mut Rng, port: Port) {
        for (scl, sda) in [(0, 0), (1, 0), (1, 1)] {
            if !self.breaks(rng) {
                self.set(script, rng, port, scl, sda);
            }
        }
    }

    /// A clock with SDA at a level, and a device read while SCL is high, sometimes while it is low.
    fn clock(&mut self, script: &mut Script, rng: &mut Rng, port: Port, sda: u8, look: bool) {
        for (scl, sda) in [(0, sda), (1, sda), (0, sda)] {
            if !self.breaks(rng) {
                self.set(script, rng, port, scl, sda);
            } else if rng.once_in(2) {
                let (scl, sda) = (rng.bit(), rng.bit());
                self.set(script, rng, port, scl, sda);
            }
            if look && (scl == 1 || rng.once_in(4)) {
                script.read(0x6000 | rng.next() as u16 & 0x1FFF);
            }
        }
    }

    /// Eight clocks in the order that the chip wants, or now and then in the other one.
    fn byte(&mut self, script: &mut Script, rng: &mut Rng, port: Port, byte: u8, high_first: bool) {
        let high_first = self.breaks(rng) != high_first;
        for i in 0..8 {
            let sda = byte >> if high_first { 7 - i } else { i } & 1;
            self.clock(script, rng, port, sda, false);
        }
    }

    /// Reads of bytes, each with a clock after it in which the master acknowledges (SDA 0) or not.
    fn reads(&mut self, script: &mut Script, rng: &mut Rng, port: Port) {
        for _ in 0..rng.pick(&[1, 1, 2, 3]) {
            for _ in 0..8 {
                self.clock(script, rng, port, 1, true);
            }
            let acknowledge = rng.pick(&[0, 0, 0, 1]);
            self.clock(script, rng, port, acknowledge, true);
        }
    }

    /// The slave byte of an X24C02, and a word address before it where a cell is chosen. `by_sheet` is for rule 1.
    fn select(&mut self, script: &mut Script, rng: &mut Rng, port: Port, cell: u8, reading: bool, by_sheet: bool) {
        let other = rng.once_in(12) || self.breaks(rng);
        let slave = rng.byte();
        let slave = if other { slave } else { 0xA0 | slave & if by_sheet { 0 } else { 0x5E } };
        if !reading || rng.once_in(2) {
            self.byte(script, rng, port, slave, by_sheet);
            // under rule 0 the chip takes no acknowledge clock here, and masters that follow the data sheet give one
            if rng.once_in(8) != by_sheet {
                self.clock(script, rng, port, 1, true);
            }
            self.byte(script, rng, port, cell, by_sheet);
            self.clock(script, rng, port, 1, true);
            if reading {
                self.start(script, rng, port);
            }
        }
        if reading {
            self.byte(script, rng, port, slave | 1, by_sheet);
            self.clock(script, rng, port, 1, true);
        }
    }

    /// A write or a read, of the X24C01 (an address with the bit for reading) or the X24C02 (a slave byte first).
    pub fn transaction(&mut self, script: &mut Script, rng: &mut Rng, port: Port, model: u8) {
        let by_sheet = self.rule == 1 && model == 2;
        let cell = if rng.once_in(3) { rng.pick(&[0, 1, 126, 127, 128, 253, 254, 255]) } else { rng.byte() };
        let reading = rng.once_in(2);
        self.start(script, rng, port);
        if model == 1 {
            self.byte(script, rng, port, cell & 0x7F | u8::from(reading) << 7, false);
            self.clock(script, rng, port, 1, true);
        } else {
            self.select(script, rng, port, cell, reading, by_sheet);
        }
        if reading {
            self.reads(script, rng, port);
        } else {
            for _ in 0..rng.pick(&[1, 1, 2, 3, 6]) {
                let byte = rng.byte();
                self.byte(script, rng, port, byte, by_sheet);
                self.clock(script, rng, port, 1, true);
            }
        }
        if !self.breaks(rng) {
            self.stop(script, rng, port);
        }
    }
}

/// A board of its own for a chip under a rule: 159 has an X24C01, 16 an X24C02.
pub fn board_with(chip: Chip, rule: u8) -> State {
    let desc = Desc { rule, ..boards::plain(if chip.model == 1 { 159 } else { 16 }, 0, 3) };
    State { desc, regs: Registers::default(), reader: None, standard: Some(chip), extra: None }
}

/// Every mode, next mode, counter and output of a model; the other fields differ from one to the next.
pub fn every_chip(model: u8, mut each: impl FnMut(Chip)) {
    let modes = if model == 1 { 6 } else { 7 };
    for mode in 0..modes {
        for next_mode in 0..modes {
            for counter in 0..=8 {
                for output in 0..=1 {
                    each(chip_in(model, mode, next_mode, counter, output));
                }
            }
        }
    }
}

/// One that passes for writing, one that does not pass, two that pass for reading, the first of them under rule 0 alone.
const SLAVE_BYTES: [u8; 4] = [0xA0, 0x5F, 0xF5, 0xA1];

fn chip_in(model: u8, mode: u8, next_mode: u8, counter: u8, output: u8) -> Chip {
    let mut chip =
        boards::chip(&mut Rng::new(u64::from(u32::from_le_bytes([mode, next_mode, counter, output]))), model);
    chip.chip_addr = SLAVE_BYTES[usize::from(mode + next_mode + counter + output) % 4];
    chip.cells = (0..cells_of(model)).map(|i| (i as u8).wrapping_mul(37).wrapping_add(11)).collect();
    Chip { mode, next_mode, counter, output, ..chip }
}

/// Levels before and after: START, STOP, rises with 0 and with 1, falls, a rise with SDA falling, both falling.
const CHANGES: [[u8; 4]; 8] =
    [[1, 1, 1, 0], [1, 0, 1, 1], [0, 0, 1, 0], [0, 1, 1, 1], [1, 0, 0, 0], [1, 1, 0, 1], [0, 1, 1, 0], [1, 1, 0, 0]];

/// A line change of a chip under a rule, and the whole chip after it.
fn transition(script: &mut Script, rule: u8, chip: Chip, [scl_before, sda_before, scl, sda]: [u8; 4]) {
    script.resume_state(&board_with(Chip { scl: scl_before, sda: sda_before, ..chip }, rule));
    script.lines(0, scl, sda);
    script.line("file");
}

/// A line change of every kind in every mode with every counter; next modes and outputs take turns, so that each
/// kind meets every mode with every next mode and either output too. The whole chip is compared after it. All of
/// them together are in `exhaustive`.
pub fn transitions(script: &mut Script) {
    let each = |script: &mut Script, chip: Chip, change: [u8; 4]| transition(script, 0, chip, change);
    for (model, modes) in [(1, 6), (2, 7)] {
        script.about(&format!("X24C0{model}: line changes in every mode"));
        for mode in 0..modes {
            for counter in 0..=8 {
                for (turn, change) in (counter..).zip(CHANGES) {
                    each(script, chip_in(model, mode, turn % modes, counter, (mode + turn) % 2), change);
                }
            }
            // SDA rising with SCL, whichever way SCL goes, and levels that stay
            for (turn, (counter, change)) in
                (0..).zip([(7, [0, 0, 1, 1]), (8, [1, 0, 0, 1]), (8, [1, 0, 1, 0]), (8, [1, 1, 1, 1])])
            {
                each(script, chip_in(model, mode, turn, counter, (mode + turn) % 2), change);
            }
            // falls after the eighth bit with the other output too, and every kind of slave byte
            for (turn, change) in (0..).zip([CHANGES[4], CHANGES[5], CHANGES[7]]) {
                for output in 0..=1 {
                    let chip = chip_in(model, mode, turn, 8, output);
                    for chip_addr in if mode == 6 { &SLAVE_BYTES[..] } else { &SLAVE_BYTES[..1] } {
                        each(script, Chip { chip_addr: *chip_addr, ..chip.clone() }, change);
                    }
                }
            }
        }
    }
}

/// An X24C02 under rule 1: clocks in every mode with every counter, a START and a STOP in every mode, falls after the
/// eighth bit with either output, and every kind of slave byte. The rest is in `exhaustive`.
pub fn transitions_by_datasheet(script: &mut Script) {
    script.about("X24C02 under rule 1: line changes in every mode");
    let [start, stop, rise_0, rise_1, fall, ..] = CHANGES;
    for mode in 0..7 {
        for counter in 0..=8 {
            for (turn, change) in (counter..).zip([rise_0, rise_1, fall]) {
                transition(script, 1, chip_in(2, mode, turn % 7, counter, (mode + turn) % 2), change);
            }
        }
        for (turn, change) in (mode..).zip([start, stop]) {
            transition(script, 1, chip_in(2, mode, turn % 7, turn, turn % 2), change);
        }
        for chip_addr in if mode == 6 { &SLAVE_BYTES[..] } else { &SLAVE_BYTES[..1] } {
            for output in 0..=1 {
                let chip = chip_in(2, mode, 5 * output, 8, output);
                transition(script, 1, Chip { chip_addr: *chip_addr, ..chip }, fall);
            }
        }
    }
}

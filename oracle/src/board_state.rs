//! The published board's own fields as a state, and back.
use crate::{
    datasheet,
    host::{Board, mir},
    mapper::{
        Map,
        bandai_fcg::{BarcodeReader, Eeprom, EepromMode, EepromModel},
    },
    state::{Chip, Reader, Registers, State, fitted},
    state_file::{decode, encode},
};

// The published clocks are of the type usize, and a state's go up to 2^62.
const _: () = assert!(usize::BITS >= 64);

impl Board {
    /// The board's own fields as a state.
    pub fn state(&self) -> State {
        let r = &self.b.regs;
        State {
            desc: self.desc.clone(),
            regs: Registers {
                prg_page: r.prg_page,
                high_bank: r.prg_bank_select,
                ram_enabled: u8::from(r.prg_ram_enabled),
                chr_regs: r.chr_regs,
                counter: r.irq_counter,
                counting: u8::from(r.irq_enabled),
                pending: u8::from(self.b.irq_pending()),
                reload: r.irq_reload,
                mirroring: self.b.mirroring() as u8,
                chr_banks: self.b.chr_banks,
            },
            reader: self.b.barcode_reader.as_ref().map(|reader| Reader {
                clock: reader.master_clock as u64,
                insert_clock: reader.insert_cycle as u64,
                number: reader.new_barcode,
                digits: reader.new_barcode_digit_count as u8,
                modules: reader.data.to_vec(),
            }),
            standard: self.b.standard_eeprom.as_ref().map(chip),
            extra: self.b.extra_eeprom.as_ref().map(chip),
        }
    }

    /// The board of a valid state: its description fitted, and every field set.
    pub fn of(state: &State) -> Self {
        let mut board = state.desc.fit().unwrap_or_else(|refusal| panic!("a valid state, and {refusal}"));
        board.set(state);
        debug_assert_eq!(board.state(), *state, "a state taken over is the state");
        board
    }

    fn set(&mut self, state: &State) {
        let from = &state.regs;
        let r = &mut self.b.regs;
        r.prg_page = from.prg_page;
        r.prg_bank_select = from.high_bank;
        r.prg_ram_enabled = from.ram_enabled != 0;
        r.chr_regs = from.chr_regs;
        r.irq_counter = from.counter;
        r.irq_enabled = from.counting != 0;
        r.irq_pending = from.pending != 0;
        r.irq_reload = from.reload;
        self.b.mirroring = mir(from.mirroring);
        self.b.chr_banks = from.chr_banks;
        if let Some(reader) = &mut self.b.barcode_reader {
            let from = state.reader.as_ref().unwrap();
            *reader = BarcodeReader {
                data: from.modules.clone().into_boxed_slice(),
                master_clock: from.clock as usize,
                insert_cycle: from.insert_clock as usize,
                new_barcode: from.number,
                new_barcode_digit_count: u32::from(from.digits),
            };
        }
        let chips = [(&mut self.b.standard_eeprom, &state.standard), (&mut self.b.extra_eeprom, &state.extra)];
        for (chip, from) in chips {
            if let Some(chip) = chip {
                set_chip(chip, from.as_ref().unwrap());
            }
        }
        self.b.update_banks(&mut self.mem);
    }

    /// The standard chip, where it is an X24C02 under rule 1.
    pub(crate) fn datasheet_chip(&self) -> Option<Chip> {
        let by_datasheet = self.desc.rule == 1 && fitted(&self.desc).standard == Some(2);
        if by_datasheet { self.b.standard_eeprom.as_ref().map(chip) } else { None }
    }

    /// Puts the datasheet's step in the place of the published chip's. `chip` is what the chip was before the event; the
    /// lines of the published one tell the levels that the event gave it. Where the event did not reach the chip, the
    /// levels are the old ones, and nothing steps.
    pub(crate) fn step_by_datasheet(&mut self, mut chip: Chip) {
        let published = self.b.standard_eeprom.as_mut().unwrap();
        datasheet::lines(&mut chip, published.prev_scl, published.prev_sda);
        set_chip(published, &chip);
    }

    /// The state file.
    pub fn file(&self) -> Vec<u8> {
        encode(&self.state())
    }

    /// Takes over the state of a file. The description in it must be this board's.
    pub fn restore(&mut self, file: &[u8]) {
        let state = decode(file).expect("a state file");
        assert_eq!(state.desc, self.desc);
        self.set(&state);
    }
}

const MODES: [EepromMode; 7] = [
    EepromMode::Idle,
    EepromMode::Addr,
    EepromMode::Read,
    EepromMode::Write,
    EepromMode::SendAck,
    EepromMode::WaitAck,
    EepromMode::ChipAddr,
];

fn chip(from: &Eeprom) -> Chip {
    Chip {
        model: match from.model {
            EepromModel::X24C01 => 1,
            EepromModel::X24C02 => 2,
        },
        mode: from.mode as u8,
        next_mode: from.next_mode as u8,
        chip_addr: from.chip_addr,
        addr: from.addr,
        data: from.data,
        counter: from.counter,
        output: from.read(),
        scl: from.prev_scl,
        sda: from.prev_sda,
        cells: from.rom_data.to_vec(),
    }
}

fn set_chip(chip: &mut Eeprom, from: &Chip) {
    chip.mode = MODES[usize::from(from.mode)];
    chip.next_mode = MODES[usize::from(from.next_mode)];
    chip.chip_addr = from.chip_addr;
    chip.addr = from.addr;
    chip.data = from.data;
    chip.counter = from.counter;
    chip.output = from.output;
    chip.prev_scl = from.scl;
    chip.prev_sda = from.sda;
    chip.rom_data.copy_from_slice(&from.cells);
}

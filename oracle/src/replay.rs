//! Runs the commands of a replay script on the published board, and writes what the README says of each.
use crate::{
    decode::decode,
    host::{Board, Desc, hex, pat},
    script::{Command, Space, command},
    state::{Chip, Reader, Registers, State},
    state_file,
};
use std::io::{self, Write};

/// The longest image that `image` makes.
const LONGEST_IMAGE: usize = 1 << 20;

/// What a script has come to. Without a board, the board is the empty one, which is not valid.
#[derive(Default)]
pub struct Replay {
    board: Option<Board>,
    records: u64,
    refused: u64,
    image: Vec<u8>,
    /// The image stands in the board's memory, where pokes go; `image` has its length only.
    image_in_board: bool,
}

impl Replay {
    /// Runs a line, its number counted from 1.
    pub fn line(&mut self, number: usize, line: &[u8], out: &mut impl Write) -> io::Result<()> {
        match command(line) {
            Ok(Some(command)) => self.run(command, out),
            Ok(None) => Ok(()),
            Err(fault) => writeln!(out, "line {number}: {fault}"),
        }
    }

    fn run(&mut self, command: Command, out: &mut impl Write) -> io::Result<()> {
        match command {
            Command::Fit(desc) => {
                let fitted = desc.fit();
                let refusal = fitted.as_ref().err().copied().unwrap_or(0);
                self.replace(fitted.ok());
                (self.records, self.refused) = (0, 0);
                writeln!(out, "fit {refusal}")
            }
            Command::Event(event) => {
                let Some(board) = &mut self.board else { return writeln!(out, "12 0 0") };
                let [refusal, flags, value] = board.event(&event);
                self.records += 1;
                self.refused += u64::from(refusal != 0);
                writeln!(out, "{refusal} {flags} {value}")
            }
            Command::Counts => {
                writeln!(out, "counts {} {}", self.records, self.refused)?;
                (self.records, self.refused) = (0, 0);
                Ok(())
            }
            Command::Stop => {
                let Some(board) = &self.board else { return writeln!(out, "stop 12 0") };
                let file = board.file();
                let state = state_file::decode(&file).expect("a file that was written is read");
                self.replace(Some(Board::of(&state)));
                writeln!(out, "stop 0 {}", file.len())
            }
            Command::File => match &self.board {
                Some(board) => writeln!(out, "file {}", hex(&board.file())),
                None => writeln!(out, "file"),
            },
            Command::Resume(file) => {
                let Some(state) = state_file::decode(&file) else { return writeln!(out, "resume 11") };
                self.replace(Some(Board::of(&state)));
                (self.records, self.refused) = (0, 0);
                writeln!(out, "resume 0")
            }
            Command::Pages => {
                let (prg, chr) = match &self.board {
                    Some(board) => board.entries(),
                    None => (vec![0; 64], vec![0; 16]),
                };
                for (word, entries) in [("prg", prg), ("chr", chr)] {
                    let entries: Vec<String> = entries.iter().map(|entry| format!("{entry:08x}")).collect();
                    writeln!(out, "{word} {}", entries.join(" "))?;
                }
                Ok(())
            }
            Command::State => state_lines(self.board.as_ref().map(Board::state), out),
            Command::Bars => {
                let state = self.board.as_ref().and_then(|board| board.state().reader);
                let modules = state.map_or(Vec::new(), |reader| reader.modules);
                let bars: String = modules.iter().map(|module| if *module == 0 { '#' } else { '.' }).collect();
                writeln!(out, "{}", format!("bars {bars}").trim_end())
            }
            Command::Module => {
                let Some(board) = &self.board else { return writeln!(out, "module 12 0 0 0") };
                let (number, spent, light) = board.module_read();
                writeln!(out, "module 0 {number} {spent} {light}")
            }
            Command::Decode(modules) => match decode(&modules) {
                Some(digits) => writeln!(out, "decode 0 {}", digits.iter().map(u8::to_string).collect::<String>()),
                None => writeln!(out, "decode 16"),
            },
            Command::Image => {
                let length = self.board.as_ref().map_or(0, |board| board.mem.len()).min(LONGEST_IMAGE);
                self.image = (0..length).map(pat).collect();
                self.image_in_board = false;
                writeln!(out, "image {length}")
            }
            Command::View(space, addr, cut) => {
                let word = if cut.is_some() { "view2" } else { "view" };
                let board = match self.lent(cut) {
                    Ok(board) => board,
                    Err(refusal) => return writeln!(out, "{word} {refusal}"),
                };
                let page = addr & !1023..=addr | 1023;
                let bytes: Vec<u8> = match space {
                    Space::Prg => page.map(|addr| board.mem.prg_peek(addr)).collect(),
                    Space::Chr => page.map(|addr| board.mem.chr_peek(addr)).collect(),
                };
                writeln!(out, "{word} 0 {}", hex(&bytes))
            }
            Command::Poke(space, addr, value, cut) => {
                let word = if cut.is_some() { "poke2" } else { "poke" };
                let board = match self.lent(cut) {
                    Ok(board) => board,
                    Err(refusal) => return writeln!(out, "{word} {refusal}"),
                };
                match space {
                    Space::Prg => board.mem.prg_write(addr, value),
                    Space::Chr => board.mem.chr_write(addr, value),
                }
                writeln!(out, "{word} 0")
            }
        }
    }

    /// Puts another board in the place of this one. The image is none of the board's, and stays.
    fn replace(&mut self, board: Option<Board>) {
        if self.image_in_board {
            self.image = self.board.as_ref().unwrap().image();
            self.image_in_board = false;
        }
        self.board = board;
    }

    /// The board with the image in its memory, or the refusal. The image is lent whole, or cut: its first bytes up to the
    /// cut, and the rest.
    fn lent(&mut self, cut: Option<u32>) -> Result<&mut Board, u8> {
        if let Some(cut) = cut {
            let board = self.board.as_ref().ok_or(12)?;
            let first = (cut as usize).min(self.image.len());
            if first != board.desc.ram_start() || self.image.len() - first != board.mem.ram().len() {
                return Err(9);
            }
        }
        self.board_with_image()
    }

    /// The board with the image in its memory, or the refusal.
    fn board_with_image(&mut self) -> Result<&mut Board, u8> {
        let board = self.board.as_mut().ok_or(12)?;
        if self.image.len() != board.mem.len() {
            return Err(9);
        }
        if !self.image_in_board {
            board.set_image(&self.image);
            self.image_in_board = true;
        }
        Ok(board)
    }
}

/// The five lines of a state; without one, of the empty board.
fn state_lines(state: Option<State>, out: &mut impl Write) -> io::Result<()> {
    let empty =
        || State { desc: Desc::default(), regs: Registers::default(), reader: None, standard: None, extra: None };
    let State { desc: d, regs: r, reader, standard, extra } = state.unwrap_or_else(empty);
    writeln!(
        out,
        "cart mapper_num {} submapper_num {} nes2 {} mirroring {} sram_access {} prg_rom_size {} chr_rom_size {} \
         chr_ram_size {} prg_ram_size {} battery_ext_size {} ciram_size {} ex_ram_size {} eeprom_rule {}",
        d.mapper,
        d.sub,
        d.nes2,
        d.mir,
        d.access,
        d.sizes[0],
        d.sizes[1],
        d.sizes[2],
        d.sizes[3],
        d.sizes[4],
        d.sizes[5],
        d.sizes[6],
        d.rule
    )?;
    let eight = |bytes: [u8; 8]| bytes.map(|byte| byte.to_string()).join(" ");
    writeln!(
        out,
        "regs prg_page {} prg_bank_select {} prg_ram_enabled {} chr_regs {} irq_counter {} irq_enabled {} \
         irq_pending {} irq_reload {} mirroring {} chr_banks {}",
        r.prg_page,
        r.high_bank,
        r.ram_enabled,
        eight(r.chr_regs),
        r.counter,
        r.counting,
        r.pending,
        r.reload,
        r.mirroring,
        eight(r.chr_banks)
    )?;
    let fitted = u8::from(reader.is_some());
    let Reader { clock, insert_clock, number, digits, mut modules } = reader.unwrap_or_default();
    let count = modules.len();
    modules.resize(160, 0);
    writeln!(
        out,
        "barcode_reader fitted {fitted} master_clock {clock} insert_cycle {insert_clock} new_barcode {number} \
         new_barcode_digit_count {digits} module_count {count} modules {}",
        hex(&modules)
    )?;
    for (name, chip) in [("standard_eeprom", standard), ("extra_eeprom", extra)] {
        let fitted = u8::from(chip.is_some());
        let mut c = chip.unwrap_or(Chip { model: 1, ..Chip::default() });
        c.cells.resize(256, 0);
        writeln!(
            out,
            "{name} fitted {fitted} model {} mode {} next_mode {} chip_addr {} addr {} data {} counter {} output {} \
             scl {} sda {} rom {}",
            c.model,
            c.mode,
            c.next_mode,
            c.chip_addr,
            c.addr,
            c.data,
            c.counter,
            c.output,
            c.scl,
            c.sda,
            hex(&c.cells)
        )?;
    }
    Ok(())
}

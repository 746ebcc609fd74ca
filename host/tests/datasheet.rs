//! The X24C02 under rule 1: a master that follows Xicor's data sheet writes and reads against a memory of its own; the worked numbers;
//! the same lines beside a second writing of the rule; and boards that no rule affects.
mod common;
#[path = "common/master.rs"]
mod master;

use common::{Rng, event, state};
use master::{Master, Wire};
use molbitak::{Board, Cart, EepromRule, Event, raw};
use tetanes_core::{datasheet, state::Chip, state_file::encode};

const DATASHEET: u8 = EepromRule::Datasheet as u8;

/// 157 without the extra chip: a device read shows the standard chip's output.
const DATACH: Cart = Cart {
    prg_rom_size: 32_768,
    chr_rom_size: 0,
    chr_ram_size: 8192,
    prg_ram_size: 0,
    battery_ext_size: 256,
    ciram_size: 0,
    ex_ram_size: 0,
    mapper_num: 157,
    submapper_num: 0,
    nes2: 1,
    mirroring: 0,
    sram_access: 3,
    eeprom_rule: DATASHEET,
};

/// The boards with an X24C02, under rule 1: 157 without and with the extra chip, 16 with submappers 0 and 5.
fn carts() -> [Cart; 4] {
    let on_16 = Cart { mapper_num: 16, prg_ram_size: 256, ..DATACH };
    [DATACH, Cart { nes2: 0, ..DATACH }, on_16, Cart { submapper_num: 5, ..on_16 }]
}

fn memory(board: &Board) -> &[u8] {
    board.standard_eeprom().expect("a standard chip").1
}

/// What the data sheet says of the memory: cells, and the address that the next read without one starts at.
struct Sheet {
    cells: [u8; 256],
    next: u8,
}

impl Sheet {
    /// Bytes written from a cell on stay within its group of four.
    fn write(&mut self, cell: u8, bytes: &[u8]) {
        self.next = cell;
        for byte in bytes {
            self.cells[usize::from(self.next)] = *byte;
            self.next = self.next & !3 | self.next.wrapping_add(1) & 3;
        }
    }

    /// Bytes read go on by one through the whole memory.
    fn read(&mut self, count: usize) -> Vec<u8> {
        let mut read = || {
            let byte = self.cells[usize::from(self.next)];
            self.next = self.next.wrapping_add(1);
            byte
        };
        (0..count).map(|_| read()).collect()
    }
}

/// A transaction at random, on the chip and on the sheet's memory.
fn transaction(r: &mut Rng, m: &mut Master, sheet: &mut Sheet) {
    let cell = if r.below(4) == 0 { r.of(&[0, 1, 3, 127, 128, 252, 253, 254, 255]) } else { r.byte() };
    let count = r.of(&[1, 1, 2, 3, 5, 9, 40, 300]);
    match r.below(8) {
        // a byte, or a page of up to four; now and then more, which overwrite the first
        0..3 => {
            let bytes: Vec<u8> = (0..r.of(&[1, 1, 2, 3, 4, 4, 6])).map(|_| r.byte()).collect();
            assert!(m.write(cell, &bytes), "every byte is acknowledged");
            sheet.write(cell, &bytes);
        }
        // an address alone
        3 => {
            assert!(m.write(cell, &[]));
            sheet.write(cell, &[]);
        }
        // from the address that was left
        4 | 5 => assert_eq!(m.read(None, count), Some(sheet.read(count))),
        6 => {
            sheet.write(cell, &[]);
            assert_eq!(m.read(Some(cell), count), Some(sheet.read(count)));
        }
        // another device's: nothing is acknowledged, and nothing changes
        _ => {
            let slave = r.of(&[0xA2, 0xA4, 0xA8, 0xAE, 0xB0, 0xB1, 0x20, 0x50, 0xE0, 0x05, 0x85, 0x00, 0xFF]);
            m.start();
            for byte in [slave, cell, r.byte()] {
                assert!(!m.send(byte), "slave byte {slave:#04x}");
            }
            m.stop();
        }
    }
}

/// Thousands of transactions on each board, by its lines and by register 13, with stops between them.
#[test]
fn transactions() {
    for (number, cart) in (1..).zip(carts()) {
        for wire in [Wire::Lines, Wire::Register13] {
            let mut r = Rng(2402 + number);
            let mut m = Master::on(Board::load(&cart).unwrap(), wire);
            let mut sheet = Sheet { cells: [0; 256], next: 0 };
            for _ in 0..2000 {
                transaction(&mut r, &mut m, &mut sheet);
                assert_eq!(memory(&m.board), sheet.cells);
                if r.below(20) == 0 {
                    m.board = Board::resume(&common::file(&m.board)).unwrap();
                }
            }
            assert_eq!(m.read(Some(0), 256).as_deref(), Some(&sheet.cells[..]));
            assert!(sheet.cells.iter().filter(|cell| **cell != 0).count() > 200, "most cells were written");
        }
    }
}

/// With access as `load` sets it register 13 is shut, and the lines are not.
#[test]
fn shut_register_13() {
    let cart = Cart { sram_access: 4, ..DATACH };
    let mut m = Master::on(Board::load(&cart).unwrap(), Wire::Lines);
    assert!(m.write(0x21, &[0x5A]));
    let was = m.board.clone();
    m.wire = Wire::Register13;
    m.write(0x21, &[0xC3]);
    assert_eq!(m.board, was);
    m.wire = Wire::Lines;
    assert_eq!(m.read(Some(0x21), 1), Some(vec![0x5A]));
}

/// Under the crate's rule the same master finds no chip: its slave bytes are taken low bit first.
#[test]
fn no_chip_under_rule_0() {
    for cart in carts() {
        let board = Board::load(&Cart { eeprom_rule: EepromRule::Crate as u8, ..cart }).unwrap();
        for wire in [Wire::Lines, Wire::Register13] {
            let mut m = Master::on(board.clone(), wire);
            for slave in [0xA0, 0xA1] {
                m.start();
                assert!(!m.send(slave));
                m.stop();
            }
            assert!(!m.write(0x21, &[0x5A]));
            assert_eq!(m.read(Some(0x21), 1), None);
            assert_eq!(memory(&m.board), [0; 256]);
        }
    }
}

/// Of all slave bytes 0xA0 and 0xA1 are acknowledged: 1010, device bits 000.
#[test]
fn slave_bytes() {
    for cart in carts() {
        let mut m = Master::on(Board::load(&cart).unwrap(), Wire::Lines);
        for slave in 0..=255 {
            m.start();
            assert_eq!(m.send(slave), slave == 0xA0 || slave == 0xA1, "slave byte {slave:#04x}");
            assert_eq!(m.board.standard_eeprom().unwrap().0.chip_addr, slave);
            m.stop();
        }
    }
}

/// Mode, next mode, chip address, address, data, counter and output.
fn fields(board: &Board) -> [u8; 7] {
    let chip = board.standard_eeprom().unwrap().0;
    [chip.mode, chip.next_mode, chip.chip_addr, chip.addr, chip.shift, chip.counter, chip.output]
}

/// Two bytes written from the last of four cells on: every row that was worked out by hand.
#[test]
fn worked_write() {
    let mut m = Master::on(Board::load(&Cart { nes2: 0, ..DATACH }).unwrap(), Wire::Lines);
    m.levels(&[(1, 1), (1, 0), (0, 0)]);
    m.bits(0xA0);
    assert_eq!(fields(&m.board), [4, 1, 160, 0, 0, 0, 1]);
    m.levels(&[(0, 1), (1, 1)]);
    assert_eq!(fields(&m.board), [4, 1, 160, 0, 0, 0, 0]);
    m.levels(&[(0, 1)]);
    assert_eq!(fields(&m.board), [1, 1, 160, 0, 0, 0, 1]);
    m.bits(0x13);
    assert_eq!(fields(&m.board), [4, 3, 160, 19, 0, 0, 1]);
    m.ninth_clock(1);
    assert_eq!(fields(&m.board), [3, 3, 160, 19, 0, 0, 1]);
    m.bits(0x5A);
    assert_eq!((fields(&m.board), memory(&m.board)[0x13]), ([4, 3, 160, 16, 90, 0, 1], 0x5A));
    m.ninth_clock(1);
    m.bits(0xC3);
    assert_eq!((fields(&m.board), memory(&m.board)[0x10]), ([4, 3, 160, 17, 195, 0, 1], 0xC3));
    m.ninth_clock(1);
    m.levels(&[(0, 0), (1, 0), (1, 1)]);
    assert_eq!(fields(&m.board), [0, 3, 160, 17, 67, 1, 1]);
}

/// A random read of the byte written above, not acknowledged and acknowledged.
#[test]
fn worked_read() {
    for ninth in [1, 0] {
        let mut m = Master::on(Board::load(&DATACH).unwrap(), Wire::Lines);
        assert!(m.write(0x13, &[0x5A]) && m.write(0x14, &[0x77]));
        m.start();
        assert!(m.send(0xA0) && m.send(0x13));
        m.start();
        m.bits(0xA1);
        assert_eq!(fields(&m.board), [4, 2, 161, 19, 90, 0, 1]);
        m.ninth_clock(1);
        assert_eq!(m.receive(), 0b0101_1010);
        assert_eq!(fields(&m.board), [5, 2, 161, 20, 90, 8, 0]);
        m.levels(&[(0, ninth), (1, ninth)]);
        let (next, data) = if ninth == 1 { (0, 90) } else { (2, 0x77) };
        assert_eq!(fields(&m.board), [5, next, 161, 20, data, 8, 0]);
        m.levels(&[(0, ninth)]);
        assert_eq!(fields(&m.board), [next, next, 161, 20, data, 0, 1]);
    }
}

/// Bytes 1 to 6 from 0xFE on under rule 1; 0xA0 low bit first.
#[test]
fn worked_group_and_low_first() {
    let mut m = Master::on(Board::load(&DATACH).unwrap(), Wire::Lines);
    assert!(m.write(0xFE, &[1, 2, 3, 4, 5, 6]));
    assert_eq!((&memory(&m.board)[0xFC..], fields(&m.board)[3]), (&[3, 4, 5, 6][..], 0xFC));
    assert_eq!(memory(&m.board)[..4], [0; 4]);
    m.start();
    m.bits(0xA0_u8.reverse_bits());
    assert_eq!(fields(&m.board)[..3], [0, 3, 5]);
}

/// The same bytes under rule 0, low bits first and without an acknowledge clock after the slave byte: they go on through the memory.
#[test]
fn worked_group_under_rule_0() {
    let cart = Cart { eeprom_rule: EepromRule::Crate as u8, ..DATACH };
    let mut m = Master::on(Board::load(&cart).unwrap(), Wire::Lines);
    m.start();
    m.bits(0xA0_u8.reverse_bits());
    for byte in [0xFE, 1, 2, 3, 4, 5, 6_u8] {
        assert!(m.send(byte.reverse_bits()));
    }
    m.stop();
    assert_eq!((&memory(&m.board)[0xFE..], &memory(&m.board)[..4]), (&[1, 2][..], &[3, 4, 5, 6][..]));
    assert_eq!(fields(&m.board)[3], 4);
}

/// A few line changes of a kind at random: START, STOP, a clock, or any levels. Clocks are the most frequent.
fn changes(r: &mut Rng) -> Vec<(u8, u8)> {
    let sda = r.below(2) as u8;
    match r.below(40) {
        0 => vec![(0, 1), (1, 1), (1, 0), (0, 0)],
        1 => vec![(0, 0), (1, 0), (1, 1)],
        2 => vec![(r.below(2) as u8, sda)],
        _ => vec![(0, sda), (1, sda), (0, sda)],
    }
}

/// The chip's fields as the oracle names them.
fn same_chip(board: &Board, chip: &Chip) {
    let wanted = [chip.mode, chip.next_mode, chip.chip_addr, chip.addr, chip.data, chip.counter, chip.output];
    assert_eq!(fields(board), wanted);
    let ours = board.standard_eeprom().unwrap().0;
    assert_eq!((ours.prev_scl, ours.prev_sda, memory(board)), (chip.scl, chip.sda, &chip.cells[..]));
}

/// The rule written a second time, in Rust from the papers (oracle/src/datasheet.rs): the same chip after every line change, from any
/// valid state. This needs no published file.
#[test]
fn second_writing() {
    let mut r = Rng(24);
    for round in 0..3000 {
        let state = state(&mut r, &carts()[round % 4]);
        let mut board = Board::resume(&encode(&state)).unwrap();
        let mut chip = state.standard.unwrap();
        for (scl, sda) in (0..60).flat_map(|_| changes(&mut r)) {
            board.lines(0, scl, sda).unwrap();
            datasheet::lines(&mut chip, scl, sda);
            same_chip(&board, &chip);
        }
        assert!(raw::molbitak_is_valid(*board.state()));
    }
}

/// An X24C01 knows no rule: the standard chip of 159 and the extra one of 157, by their lines.
#[test]
fn x24c01_without_a_rule() {
    let mut r = Rng(2401);
    for round in 0..2000 {
        let (number, cart) = [(0, Cart { mapper_num: 159, ..DATACH }), (1, Cart { nes2: 0, ..DATACH })][round % 2];
        let mut state = state(&mut r, &cart);
        let mut by_sheet = Board::resume(&encode(&state)).unwrap();
        state.desc.rule = EepromRule::Crate as u8;
        let mut by_crate = Board::resume(&encode(&state)).unwrap();
        for (scl, sda) in (0..40).flat_map(|_| changes(&mut r)) {
            by_sheet.lines(number, scl, sda).unwrap();
            by_crate.lines(number, scl, sda).unwrap();
            assert_eq!(by_sheet.state().bandai.devices, by_crate.state().bandai.devices);
        }
        assert_eq!(by_sheet.standard_eeprom(), by_crate.standard_eeprom());
        assert_eq!(by_sheet.extra_eeprom(), by_crate.extra_eeprom());
    }
}

/// On a board without an X24C02 sessions under both rules answer the same bytes and end in the same state but for the rule.
#[test]
fn boards_without_an_x24c02() {
    let mut r = Rng(153);
    let on_16 = Cart { mapper_num: 16, submapper_num: 4, prg_ram_size: 256, ..DATACH };
    for round in 0..600 {
        let cart = [on_16, Cart { mapper_num: 153, ..DATACH }, Cart { mapper_num: 159, ..DATACH }][round % 3];
        let mut by_sheet = Board::load(&cart).unwrap();
        let mut by_crate = Board::load(&Cart { eeprom_rule: EepromRule::Crate as u8, ..cart }).unwrap();
        let events: Vec<Event> = (0..200).map(|_| event(&mut r)).collect();
        let mut answers = [[0; 600]; 2];
        let [first, second] = &mut answers;
        assert_eq!(by_sheet.session(&events, first), by_crate.session(&events, second));
        assert_eq!(answers[0], answers[1]);
        let mut end = *by_sheet.state();
        end.bandai.cart.eeprom_rule = EepromRule::Crate as u8;
        assert_eq!(&end, by_crate.state());
    }
}

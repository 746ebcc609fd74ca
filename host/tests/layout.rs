//! Each field, at a value of its own, is the field that the library sees; and a call moves nothing else.
mod common;

use common::{Rng, checked, one_of_each};
use molbitak::{
    Board, Cart, Event,
    layout::{BandaiC, BarcodeReader, BoardC, EepromC, Regs},
    raw,
};

/// How many numbers each part has, in the order of `molbitak_field`: reader, cart, registers, standard chip, extra chip, what is fitted, modules, the
/// chips' memories. The numbers of a part are the words of its list.
const PARTS: [usize; 9] = [5, 13, 24, 10, 10, 3, 160, 256, 256];

/// Every field, by part and place.
fn fields() -> impl Iterator<Item = (u8, usize)> {
    (0..).zip(PARTS).flat_map(|(part, length)| (0..length).map(move |i| (part, i)))
}

fn set(b: &mut BoardC, part: u8, i: usize, v: u64) {
    let (byte, word, flag) = (v as u8, v as u32, v != 0);
    let BandaiC { barcode_reader: reader, cart, regs, devices } = &mut b.bandai;
    match (part, i) {
        (0, 0) => reader.master_clock = v,
        (0, 1) => reader.insert_cycle = v,
        (0, 2) => reader.new_barcode = v,
        (0, 3) => reader.new_barcode_digit_count = word,
        (0, 4) => reader.module_count = byte,
        (1, 0) => cart.mapper_num = v as u16,
        (1, 1) => cart.submapper_num = byte,
        (1, 2) => cart.nes2 = byte,
        (1, 3) => cart.mirroring = byte,
        (1, 4) => cart.sram_access = byte,
        (1, 5) => cart.prg_rom_size = word,
        (1, 6) => cart.chr_rom_size = word,
        (1, 7) => cart.chr_ram_size = word,
        (1, 8) => cart.prg_ram_size = word,
        (1, 9) => cart.battery_ext_size = word,
        (1, 10) => cart.ciram_size = word,
        (1, 11) => cart.ex_ram_size = word,
        (1, 12) => cart.eeprom_rule = byte,
        (2, 0) => regs.prg_page = byte,
        (2, 1) => regs.prg_bank_select = byte,
        (2, 2) => regs.prg_ram_enabled = flag,
        (2, 3..11) => regs.chr_regs[i - 3] = byte,
        (2, 11) => regs.irq_counter = v as u16,
        (2, 12) => regs.irq_enabled = flag,
        (2, 13) => regs.irq_pending = flag,
        (2, 14) => regs.irq_reload = v as u16,
        (2, 15) => regs.mirroring = byte,
        (2, 16..24) => regs.chr_banks[i - 16] = byte,
        (3, _) => *chip_field(&mut devices.standard_eeprom, i) = byte,
        (4, _) => *chip_field(&mut devices.extra_eeprom, i) = byte,
        (5, 0) => devices.has_barcode_reader = flag,
        (5, 1) => devices.has_standard_eeprom = flag,
        (5, 2) => devices.has_extra_eeprom = flag,
        (6, _) => b.modules[i] = byte,
        (7, _) => b.standard_rom[i] = byte,
        (8, _) => b.extra_rom[i] = byte,
        _ => panic!("no field {i} of part {part}"),
    }
}

fn chip_field(chip: &mut EepromC, i: usize) -> &mut u8 {
    match i {
        0 => &mut chip.model,
        1 => &mut chip.mode,
        2 => &mut chip.next_mode,
        3 => &mut chip.chip_addr,
        4 => &mut chip.addr,
        5 => &mut chip.shift,
        6 => &mut chip.counter,
        7 => &mut chip.output,
        8 => &mut chip.prev_scl,
        _ => &mut chip.prev_sda,
    }
}

/// The largest value of a field.
fn largest(part: u8, i: usize) -> u64 {
    match (part, i) {
        (0, 0..3) => u64::MAX,
        (0, 3) | (1, 5..12) => u64::from(u32::MAX),
        (1, 0) | (2, 11 | 14) => u64::from(u16::MAX),
        (2, 2 | 12 | 13) | (5, _) => 1,
        _ => u64::from(u8::MAX),
    }
}

/// A value for each field: no two alike among neighbours, and wide fields with every byte set.
fn own(part: u8, i: usize) -> u64 {
    (u64::from(part) * 1000 + i as u64 + 1).wrapping_mul(0x9E37_79B9_7F4A_7C15) & largest(part, i)
}

/// A board with every field at a value of its own.
fn distinct() -> BoardC {
    let mut b = BoardC::zeros();
    fields().for_each(|(part, i)| set(&mut b, part, i, own(part, i)));
    b
}

#[test]
fn each_field_at_a_value_of_its_own() {
    let b = distinct();
    for (part, i) in fields() {
        assert_eq!(raw::molbitak_field(b, part, i), own(part, i), "field {i} of part {part}");
    }
    for (part, length) in (0..).zip(PARTS) {
        assert_eq!(raw::molbitak_field(b, part, length), 0, "part {part} has no field {length}");
        assert_eq!(raw::molbitak_field(b, part, usize::MAX), 0);
    }
    assert_eq!((raw::molbitak_field(b, 9, 0), raw::molbitak_field(b, 255, 0)), (0, 0));
}

#[test]
fn each_field_alone() {
    for (part, i) in fields() {
        let mut b = BoardC::zeros();
        set(&mut b, part, i, largest(part, i));
        for (other, j) in fields() {
            let wanted = if (part, i) == (other, j) { largest(part, i) } else { 0 };
            assert_eq!(raw::molbitak_field(b, other, j), wanted, "field {i} of part {part} set, field {j} of part {other} asked");
        }
    }
}

/// A board that is not valid comes back from every checked call as it was, every field at a value of its own.
#[test]
fn refused_boards_come_back() {
    let b = distinct();
    let mut n = b;
    assert!(!raw::molbitak_is_valid(b));
    for event in one_of_each() {
        assert_eq!(raw::molbitak_event(&mut n, event).bytes(), [12, 0, 0]);
    }
    assert_eq!(n, b);
    // SAFETY: an empty list and an empty buffer.
    let end = unsafe { raw::molbitak_session(b, [].as_ptr(), 0, [].as_mut_ptr(), 0) };
    assert_eq!((end.refusal, end.records, end.refused), (12, 0, 0));
    assert_eq!(end.board, b);
}

/// Each field of the answer to a list of modules, and the zeros past the digits. The fields are not public, so it is written out.
#[test]
fn answers_to_lists() {
    let mut board = Board::load(&Cart { mapper_num: 157, ..Cart::default() }).unwrap();
    let mut answer = |number, digits| {
        board.input(number, digits).unwrap();
        board.init().unwrap();
        let modules = board.modules();
        // SAFETY: pointer and length of a slice that nobody writes meanwhile.
        format!("{:?}", unsafe { raw::molbitak_decode(modules.as_ptr(), modules.len()) })
    };
    let wanted = |digits: &[u8], refusal: u8| {
        let mut digit = [0; 20];
        digit[..digits.len()].copy_from_slice(digits);
        format!("Decoded {{ digits: Digits {{ len: {}, digit: {digit:?} }}, refusal: {refusal} }}", digits.len())
    };
    assert_eq!(answer(96_385_074, 8), wanted(&[9, 6, 3, 8, 5, 0, 7, 4], 0));
    assert_eq!(answer(1_234_567_890_128, 13), wanted(&[1, 2, 3, 4, 5, 6, 7, 8, 9, 0, 1, 2, 8], 0));
    assert_eq!(answer(490_123, 6), wanted(&[], 16));
}

/// A register write by the quick call.
fn write(b: &mut BoardC, addr: u16, val: u8) {
    let BandaiC { cart, regs, devices, .. } = &mut b.bandai;
    let (standard, extra) = (devices.has_standard_eeprom, devices.has_extra_eeprom);
    *regs = raw::molbitak_write_register(
        *cart,
        *regs,
        &mut devices.standard_eeprom,
        &mut devices.extra_eeprom,
        standard,
        extra,
        &mut b.standard_rom,
        &mut b.extra_rom,
        addr,
        val,
    );
}

/// What a call does not change comes back as it was, on boards with every other field at random.
#[test]
fn nothing_else_moves() {
    let mut r = Rng(7);
    for _ in 0..2000 {
        let b = *common::board(&mut r).state();
        let devices = b.bandai.devices;
        let reader = devices.has_barcode_reader;

        let (mut n, mut want) = (b, b);
        want.bandai.regs.prg_page = 9;
        assert_eq!(checked(&mut n, Event::write(0x8008, 0xF9)), 0);
        assert_eq!(n, want);

        let (mut n, mut want) = (b, b);
        want.bandai.regs.mirroring = 2;
        write(&mut n, 0xFFF9, 0xFE);
        assert_eq!(n, want);
        // what reaches the chips, by both calls
        for (address, value) in [(0x8000, r.byte()), (0x8003, r.byte()), (0x800D, r.byte())] {
            let (mut n, mut want) = (b, b);
            assert_eq!(checked(&mut want, Event::write(address, value)), 0);
            write(&mut n, address, value);
            assert_eq!(n, want);
        }

        let (mut n, mut want) = (b, b);
        let refusal = if reader && b.bandai.barcode_reader.master_clock == 1 << 62 { 6 } else { 0 };
        if refusal == 0 {
            want.bandai.barcode_reader.master_clock += u64::from(reader);
            if b.bandai.regs.irq_enabled {
                want.bandai.regs.irq_pending |= b.bandai.regs.irq_counter == 0;
                want.bandai.regs.irq_counter = b.bandai.regs.irq_counter.wrapping_sub(1);
            }
        }
        assert_eq!(checked(&mut n, Event::clocks(1)), refusal);
        assert_eq!(n, want);
        let mut n = b;
        let BandaiC { barcode_reader, regs, .. } = &mut n.bandai;
        let Regs { irq_counter, irq_enabled, irq_pending, .. } = regs;
        let clock = &mut barcode_reader.master_clock;
        assert_eq!(raw::molbitak_clocks(clock, reader, irq_counter, irq_pending, *irq_enabled, 1), refusal);
        assert_eq!(n, want);

        let (mut n, mut want) = (b, b);
        if reader {
            want.bandai.barcode_reader.new_barcode = 123;
            want.bandai.barcode_reader.new_barcode_digit_count = 20;
        }
        assert_eq!(checked(&mut n, Event::card(123, 20)), if reader { 0 } else { 4 });
        assert_eq!(n, want);
        let mut n = b;
        let BarcodeReader { new_barcode, new_barcode_digit_count, .. } = &mut n.bandai.barcode_reader;
        assert_eq!(raw::molbitak_card(new_barcode, new_barcode_digit_count, reader, 123, 20), if reader { 0 } else { 4 });
        assert_eq!(n, want);

        let (mut n, mut want) = (b, b);
        let refusal = checked(&mut n, Event::insert());
        assert_eq!(refusal, if reader { 0 } else { 4 });
        if reader {
            want.bandai.barcode_reader.insert_cycle = b.bandai.barcode_reader.master_clock;
            want.bandai.barcode_reader.module_count = n.bandai.barcode_reader.module_count;
            want.modules = n.modules;
        }
        assert_eq!(n, want);
        let mut n = b;
        let BarcodeReader { master_clock, insert_cycle, new_barcode, new_barcode_digit_count, module_count } =
            &mut n.bandai.barcode_reader;
        let (clock, number, digits) = (*master_clock, *new_barcode, *new_barcode_digit_count);
        let answer = raw::molbitak_insert(insert_cycle, module_count, &mut n.modules, reader, clock, number, digits);
        assert_eq!((n, answer), (want, refusal));

        let (mut n, mut want) = (b, b);
        let refusal = checked(&mut n, Event::lines(1, 0, 1));
        assert_eq!(refusal, if devices.has_extra_eeprom { 0 } else { 8 });
        want.bandai.devices.extra_eeprom = n.bandai.devices.extra_eeprom;
        want.extra_rom = n.extra_rom;
        assert_eq!(n, want);
        assert!(raw::molbitak_is_valid(n));
        let mut n = b;
        let (chip, rom, rule) = (&mut n.bandai.devices.extra_eeprom, &mut n.extra_rom, n.bandai.cart.eeprom_rule);
        assert_eq!(raw::molbitak_lines(chip, rom, 1, devices.has_extra_eeprom, rule, 0, 1), refusal);
        assert_eq!(n, want);
    }
}

//! The module read: the worked numbers, its three fields through the boundary, what it agrees with, and that it changes nothing.
mod common;

use common::{Rng, event, state};
use molbitak::{Board, Cart, ModuleRead, layout::BarcodeReader, raw};
use tetanes_core::state_file::encode;

const DATACH: Cart = Cart {
    prg_rom_size: 262_144,
    chr_rom_size: 0,
    chr_ram_size: 8192,
    prg_ram_size: 0,
    battery_ext_size: 256,
    ciram_size: 2048,
    ex_ram_size: 0,
    mapper_num: 157,
    submapper_num: 0,
    nes2: 0,
    mirroring: 1,
    sram_access: 4,
    eeprom_rule: 0,
};

fn shown(number: u64, spent: u16, light: u8) -> ModuleRead {
    ModuleRead { number, spent, light }
}

/// A Datach board whose reader is at a clock and was given its card at another.
fn at(clock: u64, insert_clock: u64, modules: &[u8]) -> Board {
    let mut state = state(&mut Rng(62), &DATACH);
    let reader = state.reader.as_mut().unwrap();
    (reader.clock, reader.insert_clock, reader.modules) = (clock, insert_clock, modules.to_vec());
    Board::resume(&encode(&state)).expect("a valid state")
}

/// The worked numbers with every access; the device read answers with access 1, 3 and 4 alone.
#[test]
fn worked_numbers() {
    for sram_access in 0..=4 {
        let answers = matches!(sram_access, 1 | 3 | 4);
        let mut board = Board::load(&Cart { sram_access, ..DATACH }).unwrap();
        assert_eq!(board.module_read(), shown(0, 0, 0));
        board.clocks(2500).unwrap();
        assert_eq!(board.module_read(), shown(2, 500, 0));
        board.input(4_901_234_567_894, 13).unwrap();
        assert_eq!(board.module_read(), shown(2, 500, 0));
        board.init().unwrap();
        for (clocks, wanted) in [
            (0, shown(0, 0, 8)),
            (32_999, shown(32, 999, 8)),
            (1, shown(33, 0, 0)),
            (500, shown(33, 500, 0)),
            (126_499, shown(159, 999, 8)),
            (1, shown(160, 0, 0)),
            (840_000, shown(1000, 0, 0)),
        ] {
            board.clocks(clocks).unwrap();
            assert_eq!(board.module_read(), wanted, "access {sram_access}");
            assert_eq!(board.prg_peek(0x6000), answers.then_some(wanted.light), "access {sram_access}");
        }
        board.init().unwrap();
        assert_eq!(board.module_read(), shown(0, 0, 8));
    }
    for mapper_num in [16, 153, 159] {
        let mut board = Board::load(&Cart { mapper_num, ..DATACH }).unwrap();
        assert_eq!(board.module_read(), ModuleRead::default());
        board.clocks(33_000).unwrap();
        assert_eq!(board.module_read(), ModuleRead::default());
    }
}

/// At 2^62: inserted at clock 0, within a card's time, and just now. A stop and a resume change nothing of it.
#[test]
fn at_the_clock_limit() {
    const LIMIT: u64 = 1 << 62;
    for (insert_clock, wanted) in [
        (0, shown(4_611_686_018_427_387, 904, 0)),
        (LIMIT / 2, shown(2_305_843_009_213_693, 952, 0)),
        (LIMIT - 160_000, shown(160, 0, 0)),
        (LIMIT - 159_999, shown(159, 999, 8)),
        (LIMIT, shown(0, 0, 8)),
    ] {
        let mut board = at(LIMIT, insert_clock, &[8; 160]);
        assert_eq!(board.module_read(), wanted);
        assert!(board.clock().is_err());
        assert_eq!(board.module_read(), wanted);
        assert_eq!(Board::resume(&common::file(&board)).unwrap().module_read(), wanted);
    }
}

/// Each field at a value of its own: every module with another byte, and numbers far above 2^32. The parts need not be those of a valid
/// board: more modules than there are end with the last, and an insertion to come counts no clocks.
#[test]
fn each_field_through_the_boundary() {
    let modules: [u8; 160] = std::array::from_fn(|i| 255 - i as u8);
    let read = |clock, insert_cycle, count, fitted| {
        // numbers that are not asked for, with every byte set
        let (new_barcode, new_barcode_digit_count) = (0x1112_1314_1516_1718, 0x2122_2324);
        let times = BarcodeReader { master_clock: clock, insert_cycle, new_barcode, new_barcode_digit_count, module_count: 99 };
        raw::molbitak_module_read(&times, count, fitted, &modules)
    };
    let mut r = Rng(10);
    for number in 0..300 {
        for spent in [0, 1, 255, 256, 512, 999] {
            let elapsed = 1000 * number + u64::from(spent);
            let insert = r.below(1 << 60);
            for count in [0, 1, 90, 132, 159, 160, 161, 255] {
                let lit = number < u64::from(count) && number < 160;
                let light = if lit { modules[number as usize] } else { 0 };
                assert_eq!(read(insert + elapsed, insert, count, true), shown(number, spent, light), "{count} modules");
                assert_eq!(read(insert + elapsed, insert, count, false), ModuleRead::default());
            }
        }
    }
    for number in [1 << 16, 1 << 32, (1 << 32) + 1, 0x0F0E_0D0C_0B0A, 0x0010_0F0E_0D0C_0B0A] {
        assert_eq!(read(1000 * number + 999, 0, 160, true), shown(number, 999, 0));
    }
    assert_eq!(read(u64::MAX, 0, 160, true), shown(18_446_744_073_709_551, 615, 0));
    for (clock, insert) in [(0, 1), (5, 1 << 40), (0, u64::MAX), (u64::MAX - 1, u64::MAX)] {
        assert_eq!(read(clock, insert, 160, true), shown(0, 0, modules[0]));
    }
}

/// On any board: number and clocks spent are the clocks since the insertion, the light is the module's, and it is the device read's where
/// the devices answer. Asking changes nothing.
#[test]
fn agrees_with_the_board() {
    let mut r = Rng(2);
    let (mut lights, mut answered) = (0, 0);
    for _ in 0..3000 {
        let mut board = common::board(&mut r);
        for _ in 0..10 {
            let was = board.clone();
            let read = board.module_read();
            assert_eq!((&board, board.module_read()), (&was, read));
            let elapsed = board.barcode_reader().map_or(0, |reader| reader.master_clock - reader.insert_cycle);
            assert_eq!((1000 * read.number + u64::from(read.spent), read.spent < 1000), (elapsed, true));
            let light = usize::try_from(read.number).ok().and_then(|number| board.modules().get(number));
            assert_eq!(read.light, light.copied().unwrap_or(0));
            for value in [board.prg_peek(0x6000), board.prg_peek(0x7FFF)].into_iter().flatten() {
                assert_eq!(value & 15, read.light);
                answered += 1;
            }
            lights += u32::from(read.light);
            // the module reads above are no records of it
            let end = board.session(&[event(&mut r)], &mut [0; 3]).unwrap();
            assert_eq!(end.records, 1);
        }
    }
    assert!(lights > 8000 && answered > 10_000, "{lights} {answered}");
}

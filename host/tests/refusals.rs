//! Every refusal in its case, the order among them, empty slices, and tails that are kept.
mod common;

use common::{UNKNOWN_KIND, image_len};
use molbitak::{Board, Cart, Event, Refusal, SessionEnd, answers, decode};
use tetanes_core::state_file::encode;

const DATACH: Cart = Cart {
    prg_rom_size: 32_768,
    chr_rom_size: 0,
    chr_ram_size: 8192,
    prg_ram_size: 0,
    battery_ext_size: 1024,
    ciram_size: 0,
    ex_ram_size: 0,
    mapper_num: 157,
    submapper_num: 0,
    nes2: 0,
    mirroring: 0,
    sram_access: 4,
    eeprom_rule: 0,
};

fn datach() -> Board {
    Board::load(&DATACH).unwrap()
}

/// The two counts of a session.
fn counts(end: Result<SessionEnd, Refusal>) -> Result<(usize, usize), Refusal> {
    end.map(|end| (end.records, end.refused))
}

fn on_159() -> Board {
    Board::load(&Cart { mapper_num: 159, ..DATACH }).unwrap()
}

#[test]
fn numbers_and_words() {
    let named: Vec<u8> = (1..=13).chain([16, 17]).collect();
    assert_eq!(Refusal::ALL.iter().map(|refusal| refusal.number()).collect::<Vec<u8>>(), named);
    for &refusal in Refusal::ALL {
        assert_eq!(Refusal::of(refusal.number()), Some(refusal));
        assert!(refusal.to_string().ends_with(&format!("(refusal {})", refusal.number())));
    }
    assert_eq!(Refusal::of(0), None);
    for number in (1..=255).filter(|number| !named.contains(number)) {
        let refusal = Refusal::Unknown(number);
        assert_eq!((Refusal::of(number), refusal.number()), (Some(refusal), number));
        assert!(refusal.to_string().ends_with(&format!("(refusal {number})")));
    }
    let _: Box<dyn std::error::Error> = Box::new(Refusal::NoReader);
}

#[test]
fn fitting_1_2_3() {
    let load = |cart: Cart| Board::load(&cart).map(|_| ()).unwrap_err();
    for mapper_num in (0..=u16::MAX).filter(|m| ![16, 153, 157, 159].contains(m)) {
        assert_eq!(load(Cart { mapper_num, prg_rom_size: u32::MAX, nes2: 2, ..DATACH }), Refusal::MapperUnknown);
    }
    const OVER: u32 = 16_777_217;
    for cart in [
        Cart { prg_rom_size: OVER, ..DATACH },
        Cart { chr_rom_size: OVER, ..DATACH },
        Cart { chr_rom_size: 8192, chr_ram_size: OVER, ..DATACH },
        Cart { prg_ram_size: OVER, ..DATACH },
        Cart { battery_ext_size: OVER, ..DATACH },
        Cart { ciram_size: OVER, ..DATACH },
        Cart { ex_ram_size: u32::MAX, ..DATACH },
        Cart { prg_rom_size: OVER, mirroring: 5, ..DATACH },
    ] {
        assert_eq!(load(cart), Refusal::SizeTooLarge);
    }
    assert!(Board::load(&Cart { prg_rom_size: 16_777_216, ..DATACH }).is_ok());
    for cart in [Cart { nes2: 2, ..DATACH }, Cart { mirroring: 5, ..DATACH }, Cart { sram_access: 5, ..DATACH }] {
        assert_eq!(load(cart), Refusal::CodeUnlisted);
    }
}

#[test]
fn cards_4_5() {
    let (mut board, mut other) = (datach(), on_159());
    let (was, other_was) = (board.clone(), other.clone());
    assert_eq!(other.input(1, 21), Err(Refusal::NoReader));
    assert_eq!(other.init(), Err(Refusal::NoReader));
    assert_eq!(board.input(1, 21), Err(Refusal::DigitCount));
    assert_eq!(board.input(1, 269), Err(Refusal::DigitCount));
    assert_eq!((&board, &other), (&was, &other_was));
    assert_eq!(board.input(u64::MAX, 20), Ok(()));
    assert_ne!(board, was);
}

#[test]
fn clocks_6() {
    let mut state = common::state(&mut common::Rng(3), &DATACH);
    state.reader.as_mut().unwrap().clock = (1 << 62) - 5;
    state.reader.as_mut().unwrap().insert_clock = 0;
    let mut board = Board::resume(&encode(&state)).unwrap();
    let was = board.clone();
    assert_eq!(board.clocks(6), Err(Refusal::ClockLimit));
    assert_eq!(board, was);
    assert_eq!(board.clocks(4), Ok(()));
    assert_eq!(board.clock(), Ok(()));
    let at_limit = board.clone();
    assert_eq!(board.clock(), Err(Refusal::ClockLimit));
    assert_eq!(board.clocks(u32::MAX), Err(Refusal::ClockLimit));
    assert_eq!(board.clocks(0), Ok(()));
    assert_eq!(board, at_limit);
    assert_eq!(on_159().clocks(u32::MAX), Ok(()));
}

#[test]
fn lines_7_8() {
    let (mut board, mut other) = (datach(), on_159());
    let was = board.clone();
    for level in 2..=255 {
        assert_eq!(board.lines(0, level, 0), Err(Refusal::LineLevel));
        assert_eq!(board.lines(1, 0, level), Err(Refusal::LineLevel));
        assert_eq!(board.lines(level, level, level), Err(Refusal::ChipNotFitted));
    }
    assert_eq!(other.lines(1, 2, 2), Err(Refusal::ChipNotFitted));
    assert_eq!(board, was);
    assert_eq!(board.lines(1, 1, 1), Ok(()));
    assert_eq!(other.lines(0, 1, 1), Ok(()));
}

#[test]
fn images_9() {
    let board = datach();
    let len = image_len(&DATACH);
    let mut image = vec![0x55; len + 1];
    for n in [0, 1, 1024, len - 1, len + 1] {
        let part = &mut image[..n];
        assert_eq!(board.prg_page(part, 0x8000), Err(Refusal::ImageLength));
        assert_eq!(board.chr_page(part, 0), Err(Refusal::ImageLength));
        assert_eq!(board.prg_poke(part, 0x8000, 1), Err(Refusal::ImageLength));
        assert_eq!(board.chr_poke(part, 0, 1), Err(Refusal::ImageLength));
    }
    assert!(image.iter().all(|byte| *byte == 0x55));
    let image = &mut image[..len];
    assert_eq!(board.prg_page(image, 0x8000).unwrap().len(), 1024);
    // PRG ROM is not written, CHR RAM is
    assert_eq!(board.prg_poke(image, 0x8000, 1), Ok(()));
    assert!(image.iter().all(|byte| *byte == 0x55));
    assert_eq!(board.chr_poke(image, 5, 1), Ok(()));
    assert_eq!(board.chr_page(image, 0).unwrap()[5], 1);
    assert_eq!(image.iter().filter(|byte| **byte != 0x55).count(), 1);
}

#[test]
fn buffers_10_and_tails() {
    let mut board = datach();
    let was = board.clone();
    let events = [Event::read(0x6000), common::of_kind(UNKNOWN_KIND), Event::clocks(3)];
    for n in 0..9 {
        let mut buffer = vec![0xEE; n];
        assert_eq!(board.session(&events, &mut buffer), Err(Refusal::BufferTooShort));
        assert_eq!((&board, buffer), (&was, vec![0xEE; n]));
    }
    for n in [9, 10, 100] {
        let mut buffer = vec![0xEE; n];
        assert_eq!(counts(board.session(&events, &mut buffer)), Ok((3, 1)));
        assert_eq!(buffer[..9], [0, 1, 0, 13, 0, 0, 0, 0, 0]);
        assert!(buffer[9..].iter().all(|byte| *byte == 0xEE));
    }
    let length = common::file(&board).len();
    for n in 0..length {
        let mut buffer = vec![0xEE; n];
        assert_eq!(board.save_into(&mut buffer), Err(Refusal::BufferTooShort));
        assert!(buffer.iter().all(|byte| *byte == 0xEE));
    }
    let mut buffer = vec![0xEE; length + 50];
    assert_eq!(board.save_into(&mut buffer), Ok(length));
    assert_eq!(buffer[..length], common::file(&board));
    assert!(buffer[length..].iter().all(|byte| *byte == 0xEE));
}

#[test]
fn files_11() {
    for file in [&[][..], &[0], &[2], &[0; 73], &[0; 74], &[255; 681], &[255; 682], &[255; 683]] {
        assert_eq!(Board::resume(file), Err(Refusal::NotAStateFile));
    }
}

#[test]
fn boards_12() {
    let mut state = *datach().state();
    state.bandai.devices.standard_eeprom.counter = 9;
    let was = state;
    assert_eq!(common::checked(&mut state, Event::lines(7, 7, 7)), 12);
    assert_eq!(state, was);
}

#[test]
fn kinds_13() {
    let mut board = datach();
    let was = board.clone();
    for kind in UNKNOWN_KIND..=255 {
        let mut buffer = [0; 3];
        let mut event = common::of_kind(kind);
        event.count = 1;
        assert_eq!(counts(board.session(&[event], &mut buffer)), Ok((1, 1)));
        assert_eq!(answers(&buffer).next().unwrap().refusal(), Some(Refusal::KindUnknown));
    }
    assert_eq!(board, was);
}

#[test]
fn lists_16() {
    for list in [&[][..], &[0], &[8; 132], &[0; 132], &[8; 160], &[0; 160], &[255; 2000]] {
        assert_eq!(decode(list), Err(Refusal::NoSuchCard));
    }
}

/// A rule above 1 on every mapper, after 1, 2 and 3; in a state it is 12, in a file 11.
#[test]
fn rules_17() {
    for mapper_num in [16, 153, 157, 159] {
        for eeprom_rule in 0..=255 {
            let cart = Cart { mapper_num, eeprom_rule, ..DATACH };
            match Board::load(&cart) {
                Ok(board) => assert!(eeprom_rule <= 1 && board.cart() == &cart),
                Err(refusal) => assert!(eeprom_rule > 1 && refusal == Refusal::RuleUnlisted),
            }
        }
    }
    let unlisted = Cart { eeprom_rule: 2, ..DATACH };
    for (cart, refusal) in [
        (Cart { mapper_num: 18, ..unlisted }, Refusal::MapperUnknown),
        (Cart { ex_ram_size: u32::MAX, ..unlisted }, Refusal::SizeTooLarge),
        (Cart { nes2: 2, ..unlisted }, Refusal::CodeUnlisted),
        (Cart { mirroring: 5, ..unlisted }, Refusal::CodeUnlisted),
        (Cart { sram_access: 5, ..unlisted }, Refusal::CodeUnlisted),
        (Cart { sram_access: 5, eeprom_rule: 1, ..DATACH }, Refusal::CodeUnlisted),
    ] {
        assert_eq!(Board::load(&cart), Err(refusal));
    }
    let mut state = *datach().state();
    state.bandai.cart.eeprom_rule = 2;
    assert_eq!(common::checked(&mut state, Event::clocks(1)), 12);
    // the rule ends body 1: five entries of contents, then 34 bytes before it
    let mut file = common::file(&datach());
    file[31 + 34] = 1;
    assert_eq!(Board::resume(&file).unwrap().cart().eeprom_rule, 1);
    file[31 + 34] = 2;
    assert_eq!(Board::resume(&file), Err(Refusal::NotAStateFile));
}

#[test]
fn empty_slices() {
    let mut board = datach();
    let was = board.clone();
    assert_eq!(counts(board.session(&[], &mut [])), Ok((0, 0)));
    let mut buffer = [0xEE; 5];
    assert_eq!(counts(board.session(&[], &mut buffer)), Ok((0, 0)));
    assert_eq!((&board, buffer), (&was, [0xEE; 5]));
    assert_eq!(board.save_into(&mut []), Err(Refusal::BufferTooShort));
    assert_eq!(Board::resume(&[]), Err(Refusal::NotAStateFile));
    assert_eq!(board.prg_page(&[], 0), Err(Refusal::ImageLength));
    assert_eq!(board.chr_poke(&mut [], 0, 0), Err(Refusal::ImageLength));
}

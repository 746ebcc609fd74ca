//! All 256 codes for each kind that crosses as a number: one that no kind has is refused with 12, and never read as some kind.
mod common;

use common::{checked, one_of_each};
use molbitak::{Board, Cart, Event, layout::BoardC, raw};

fn datach() -> BoardC {
    let cart = Cart { mapper_num: 157, prg_rom_size: 32_768, chr_ram_size: 8192, sram_access: 3, ..Cart::default() };
    *Board::load(&cart).unwrap().state()
}

/// Every checked call refuses the board with 12 and leaves it; a line change of the chip does so without the test of validity too.
fn refused(b: BoardC, chip: u8, what: &str) {
    let mut n = b;
    let image = &mut [0u8; 0];
    let mut buffer = [0xEE; 700];
    assert!(!raw::molbitak_is_valid(b), "{what}");
    let events = one_of_each().into_iter().chain([
        Event::card(1, 21),
        Event::lines(chip, 1, 1),
        Event::lines(7, 7, 7),
        common::of_kind(200),
    ]);
    for event in events {
        assert_eq!(raw::molbitak_event(&mut n, event).bytes(), [12, 0, 0], "{what}, {event:?}");
    }
    let numbers = [
        raw::molbitak_prg_view(n, 0, 0).refusal,
        raw::molbitak_chr_view(n, 0, 0).refusal,
        // SAFETY: pointer and length of an empty array, twice.
        unsafe { raw::molbitak_prg_poke(n, image.as_mut_ptr(), 0, 0, 0) },
        // SAFETY: as above.
        unsafe { raw::molbitak_chr_poke(n, image.as_mut_ptr(), 0, 0, 0) },
        // SAFETY: pointer and length of the buffer.
        unsafe { raw::molbitak_state_write(n, buffer.as_mut_ptr(), buffer.len()) }.refusal,
        // SAFETY: three words of zeros and the buffer.
        unsafe { raw::molbitak_session(n, [0; 3].as_ptr(), 3, buffer.as_mut_ptr(), buffer.len()) }.refusal,
        lines(&mut n, chip),
    ];
    assert_eq!(numbers, [12; 7], "{what}");
    assert_eq!(n, b, "{what}");
    assert_eq!(buffer, [0xEE; 700], "{what}");
}

/// The call without the test of validity, on one chip.
fn lines(b: &mut BoardC, chip: u8) -> u8 {
    let (devices, rule) = (&mut b.bandai.devices, b.bandai.cart.eeprom_rule);
    if chip == 0 {
        raw::molbitak_lines(&mut devices.standard_eeprom, &mut b.standard_rom, 0, true, rule, 1, 1)
    } else {
        raw::molbitak_lines(&mut devices.extra_eeprom, &mut b.extra_rom, 1, true, rule, 1, 1)
    }
}

#[test]
fn models() {
    for code in 0..=255u8 {
        let (mut standard, mut extra) = (datach(), datach());
        standard.bandai.devices.standard_eeprom.model = code;
        extra.bandai.devices.extra_eeprom.model = code;
        assert_eq!(raw::molbitak_is_valid(standard), code == 2, "standard model {code}");
        assert_eq!(raw::molbitak_is_valid(extra), code == 1, "extra model {code}");
        if code != 1 && code != 2 {
            refused(standard, 0, &format!("standard model {code}"));
            refused(extra, 1, &format!("extra model {code}"));
        }
    }
}

#[test]
fn modes() {
    for code in 0..=255u8 {
        for next in [false, true] {
            for chip in [0, 1] {
                let mut b = datach();
                let eeprom = if chip == 0 { &mut b.bandai.devices.standard_eeprom } else { &mut b.bandai.devices.extra_eeprom };
                *(if next { &mut eeprom.next_mode } else { &mut eeprom.mode }) = code;
                // an X24C01 has no mode 6
                let valid = code <= 5 || code == 6 && chip == 0;
                let what = format!("chip {chip}, mode {code}, next {next}");
                assert_eq!(raw::molbitak_is_valid(b), valid, "{what}");
                if code > 6 {
                    refused(b, chip, &what);
                } else if valid {
                    assert_eq!(checked(&mut b, Event::lines(chip, 0, 0)), 0, "{what}");
                }
            }
        }
    }
}

/// On a chip that is not fitted only the first of each kind is valid.
#[test]
fn not_fitted() {
    let cart = Cart { mapper_num: 153, ..Cart::default() };
    let board = *Board::load(&cart).unwrap().state();
    assert_eq!((board.bandai.devices.standard_eeprom.model, board.bandai.devices.extra_eeprom.model), (1, 1));
    for code in 0..=255u8 {
        let mut b = board;
        b.bandai.devices.standard_eeprom.model = code;
        assert_eq!(raw::molbitak_is_valid(b), code == 1);
        let mut b = board;
        b.bandai.devices.extra_eeprom.mode = code;
        assert_eq!(raw::molbitak_is_valid(b), code == 0);
        let mut b = board;
        b.bandai.devices.standard_eeprom.next_mode = code;
        assert_eq!(raw::molbitak_is_valid(b), code == 0);
    }
}

/// The rule crosses as a number too.
#[test]
fn rules() {
    for code in 0..=255u8 {
        let mut b = datach();
        b.bandai.cart.eeprom_rule = code;
        let was = b;
        assert_eq!(raw::molbitak_is_valid(b), code <= 1, "rule {code}");
        let refusal = if code <= 1 { 0 } else { 12 };
        for event in one_of_each() {
            assert_eq!(checked(&mut b, event), refusal, "rule {code}, {event:?}");
        }
        assert_eq!(b == was, code > 1, "rule {code}");
    }
}

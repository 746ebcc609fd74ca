//! State files: what is written is the papers' file of the same state, it reads back, and nothing else is taken but the shorter file
//! that the state had when carts had no rule.
mod common;

use common::{Rng, cart, file, state};
use molbitak::{Board, Cart, Refusal, STATE_FILE_MAX};
use tetanes_core::state_file::{decode, encode, encode_old};

#[test]
fn files_of_any_valid_state() {
    let mut r = Rng(11);
    for _ in 0..20_000 {
        let cart = cart(&mut r);
        let wanted = encode(&state(&mut r, &cart));
        let board = Board::resume(&wanted).expect("a valid state");
        let written = file(&board);
        assert_eq!(written, wanted);
        assert!(written.len() <= STATE_FILE_MAX);
        assert_eq!(Board::resume(&written).as_ref(), Ok(&board));
        assert_eq!(board.cart(), &cart);
    }
}

#[test]
fn the_longest_file() {
    let mut r = Rng(12);
    let longest = (0..2000).map(|_| file(&common::board(&mut r)).len()).max();
    assert_eq!(longest, Some(STATE_FILE_MAX));
}

/// A file with one byte changed is refused, or is the file of another board; and whether it is refused is what a reader written from
/// the paper alone says.
#[test]
fn damaged_files() {
    let mut r = Rng(13);
    let (mut taken, mut refused) = (0, 0);
    for _ in 0..300 {
        let good = file(&common::board(&mut r));
        for at in 0..good.len() {
            let mut bad = good.clone();
            bad[at] = bad[at].wrapping_add(r.of(&[1, 2, 8, 127, 128, 255]));
            match Board::resume(&bad) {
                Ok(board) => {
                    assert_eq!(file(&board), bad);
                    taken += 1;
                }
                Err(refusal) => {
                    assert_eq!(refusal, Refusal::NotAStateFile);
                    refused += 1;
                }
            }
            assert_eq!(Board::resume(&bad).is_ok(), decode(&bad).is_some(), "byte {at}");
        }
    }
    assert!(taken > 10_000 && refused > 10_000, "{taken} taken, {refused} refused");
}

#[test]
fn shorter_and_longer_files() {
    let mut r = Rng(14);
    for _ in 0..20 {
        let good = file(&common::board(&mut r));
        for n in 0..good.len() {
            assert_eq!(Board::resume(&good[..n]), Err(Refusal::NotAStateFile));
        }
        for tail in [0, 1, 255] {
            let mut longer = good.clone();
            longer.push(tail);
            assert_eq!(Board::resume(&longer), Err(Refusal::NotAStateFile));
        }
    }
}

/// The file without a rule is read as rule 0, whatever rule the state had, and is never written.
#[test]
fn files_without_a_rule() {
    let mut r = Rng(15);
    for _ in 0..5000 {
        let cart = cart(&mut r);
        let mut state = state(&mut r, &cart);
        let old = encode_old(&state);
        let board = Board::resume(&old).expect("an old file");
        assert_eq!(board.cart(), &Cart { eeprom_rule: 0, ..cart });
        state.desc.rule = 0;
        let written = file(&board);
        assert_eq!((&written, written.len()), (&encode(&state), old.len() + 1));
        assert_eq!(Board::resume(&written), Ok(board));
    }
}

/// The worked bytes of a fresh 153: both files, and one with the length of the old and the starts of the new.
#[test]
fn both_files_of_a_153() {
    let cart = Cart { mapper_num: 153, sram_access: 4, ..Cart::default() };
    let board = Board::load(&cart).unwrap();
    let new = file(&board);
    assert_eq!((new.len(), &new[..13]), (74, &[2, 1, 0, 0x23, 0, 0x0D, 0, 2, 0, 0x1A, 0, 0x30, 0][..]));
    assert_eq!((new[13], new[13 + 34]), (0x99, 0));
    let mut old = [&new[..47], &new[48..]].concat();
    (old[3], old[11]) = (0x22, 0x2F);
    assert_eq!(old.len(), 73);
    assert_eq!(Board::resume(&old).as_ref(), Ok(&board));
    assert_eq!(file(&Board::resume(&old).unwrap()), new);
    for (at, value) in [(3, 0x22), (11, 0x2F), (47, 2), (47, 255)] {
        let mut bad = new.clone();
        bad[at] = value;
        assert_eq!(Board::resume(&bad), Err(Refusal::NotAStateFile), "byte {at} is {value}");
    }
    for (at, value) in [(3, 0x23), (11, 0x30)] {
        let mut bad = old.clone();
        bad[at] = value;
        assert_eq!(Board::resume(&bad), Err(Refusal::NotAStateFile), "byte {at} of the old file is {value}");
    }
}

/// An old file with a byte changed is the old file of another board of rule 0, or is refused, as a reader written from the papers says.
#[test]
fn damaged_files_without_a_rule() {
    let mut r = Rng(16);
    let (mut taken, mut refused) = (0, 0);
    for _ in 0..100 {
        let cart = cart(&mut r);
        let good = encode_old(&state(&mut r, &cart));
        for at in 0..good.len() {
            let mut bad = good.clone();
            bad[at] = bad[at].wrapping_add(r.of(&[1, 2, 8, 127, 128, 255]));
            let read = Board::resume(&bad);
            match decode(&bad) {
                Some(state) => {
                    assert_eq!((state.desc.rule, encode_old(&state)), (0, bad), "byte {at}");
                    assert_eq!(file(&read.unwrap()), encode(&state), "byte {at}");
                    taken += 1;
                }
                None => {
                    assert_eq!(read, Err(Refusal::NotAStateFile), "byte {at}");
                    refused += 1;
                }
            }
        }
        for n in 0..good.len() {
            assert_eq!(Board::resume(&good[..n]), Err(Refusal::NotAStateFile));
        }
    }
    assert!(taken > 3000 && refused > 3000, "{taken} taken, {refused} refused");
}

//! The check on a list of modules. The published crate has none, so no bar is set: beside it stand its reader's `input` and `init` of
//! the same card, which make that list.
use crate::{
    inputs::{datach, fit},
    timing::{Row, alone, both},
};
use molbitak::{Board, Refusal, decode};
use std::hint::black_box;
use tetanes_core::mapper::bandai_fcg::BarcodeReader;

/// The list that both readers show of a card, whose digits but the last it is decoded to.
fn list(ours: &mut Board, reader: &mut BarcodeReader, number: u64, digits: u32) -> Vec<u8> {
    ours.input(number, digits).and_then(|()| ours.init()).unwrap();
    reader.input(number, digits);
    reader.init();
    assert_eq!(ours.modules(), &reader.data[..], "the lists differ");
    let decoded = decode(ours.modules()).unwrap();
    assert_eq!((decoded.as_slice().len(), decoded.number() / 10), (digits as usize, number / 10));
    ours.modules().to_vec()
}

/// Lists of 8 and of 13 digits, each of another card, and lists of 160 that are refused: their last bar is light.
pub fn decodes(rows: &mut Vec<Row>) {
    const M: u64 = 1_000;
    let (mut ours, mut rust) = fit(&datach());
    let reader = rust.b.barcode_reader.as_mut().unwrap();
    for (first, digits) in [(49_012_340u64, 8u32), (4_901_234_567_890, 13)] {
        let numbers: Vec<u64> = (0..M).map(|i| first + 10 * i).collect();
        let mut lists: Vec<Vec<u8>> = numbers.iter().map(|number| list(&mut ours, reader, *number, digits)).collect();
        let length = lists[0].len();
        rows.push(both(
            &format!("decode of a list of {length}; Rust: input and init of its card"),
            None,
            M,
            || lists.iter().for_each(|list| _ = black_box(decode(black_box(list)))),
            || {
                for number in &numbers {
                    black_box(&mut *reader).input(*number, digits);
                    black_box(&mut *reader).init();
                }
            },
        ));
        if length == 160 {
            lists.iter_mut().for_each(|list| list[length - 33] = 8);
            assert!(lists.iter().all(|list| decode(list) == Err(Refusal::NoSuchCard)));
            rows.push(alone(&format!("decode of a list that is refused, {length}"), M, || {
                lists.iter().for_each(|list| _ = black_box(decode(black_box(list))));
            }));
        }
    }
}

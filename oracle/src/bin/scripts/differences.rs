//! An input for each row of docs/DIFFERENCES.md, under its number there.
use crate::{
    boards::plain,
    corners::{bits, low_first, start, stop},
    master::{Master, Wire},
    writer::Script,
};
use tetanes_core::host::Desc;

fn part(script: &mut Script, number: u32, what: &str) {
    script.about(&format!("difference {number}: {what}"));
}

pub fn all(script: &mut Script) {
    board(script);
    cards(script);
    chips(script);
    lines_by_datasheet(script);
    addresses_by_datasheet(script);
}

/// 1 to 11: refusals and panics; registers.
fn board(script: &mut Script) {
    let text = include_str!("differences.txt");
    script.text.push_str(text);
    script.count(text);
}

/// 12 to 18: cards.
fn cards(script: &mut Script) {
    let mut cards = |number, what, cards: &[(u64, u32)]| {
        part(script, number, what);
        for (number, digits) in cards {
            script.card(*number, *digits);
            script.insert();
            script.line("bars");
        }
    };
    cards(12, "12 digits are no UPC-A", &[(490_123_456_789, 12)]);
    cards(13, "14 digits and more", &[(49_012_345_678_945, 14), (u64::MAX, 20)]);
    cards(14, "fewer than 7 digits", &[(0, 0), (0, 1), (12, 2), (123, 3), (1234, 4), (12_345, 5), (123_456, 6)]);
    cards(15, "check digits 5, 2 and 1 for 2, 4 and 6 digits", &[(12, 2), (1234, 4), (123_456, 6)]);
    cards(16, "7 digits and their check digit are 8", &[(4_901_234, 7), (49_012_347, 8)]);
    cards(17, "a wrong last digit is not looked at", &[(4_006_381_333_930, 13), (4_006_381_333_931, 13)]);
    cards(18, "light margins of 33 and 32", &[(4_006_381_333_931, 13)]);
    script.line("file");
}

const ACKNOWLEDGE: [u8; 1] = [1];

/// 19 to 31: chips. Reads while SCL is high show the output.
fn chips(script: &mut Script) {
    let s = script;
    let x24c01 = plain(159, 0, 3);
    let x24c02 = plain(16, 0, 3);

    part(s, 19, "low bits first: an X24C02 takes 1,0,1,0,0,0,0,0 as 0x05, and is Idle");
    s.fit(&x24c02);
    start(s, 0);
    bits(s, 0, &[1, 0, 1, 0, 0, 0, 0, 0], true);
    s.line("file");

    part(s, 20, "a slave byte passes by bits 5 and 7 alone: 0xFE, then an address");
    start(s, 0);
    bits(s, 0, &low_first(0xFE), true);
    bits(s, 0, &low_first(0x21), true);
    s.line("file");

    part(s, 21, "the address right after a write slave byte: with an acknowledge clock 0x21 becomes 0x43");
    start(s, 0);
    bits(s, 0, &low_first(0xA0), true);
    bits(s, 0, &ACKNOWLEDGE, true);
    bits(s, 0, &low_first(0x21), true);
    s.line("file");
    stop(s, 0);

    part(s, 22, "an X24C01 stores one byte for each START");
    s.fit(&x24c01);
    start(s, 0);
    for byte in [0x2A, 0x81, 0x42] {
        bits(s, 0, &low_first(byte), true);
        bits(s, 0, &ACKNOWLEDGE, true);
    }
    stop(s, 0);
    s.line("file");

    part(s, 23, "an X24C02 stores any number of bytes, over the end of its memory");
    s.fit(&x24c02);
    start(s, 0);
    bits(s, 0, &low_first(0xA0), true);
    bits(s, 0, &low_first(252), true);
    for byte in [0x11, 0x22, 0x33, 0x44, 0x55, 0x66] {
        bits(s, 0, &ACKNOWLEDGE, true);
        bits(s, 0, &low_first(byte), true);
    }
    s.line("file");

    part(s, 24, "a byte is stored at the fall after its eighth bit, without STOP; START before that fall prevents it");
    s.fit(&x24c01);
    for early in [false, true] {
        start(s, 0);
        bits(s, 0, &low_first(0x10), true);
        bits(s, 0, &ACKNOWLEDGE, true);
        bits(s, 0, &[1, 0, 0, 1, 0, 1, u8::from(early)], true);
        s.lines(0, 0, 1);
        s.lines(0, 1, 1);
        if early {
            s.lines(0, 1, 0);
        }
        s.lines(0, 0, 1);
        s.line("file");
    }

    part(s, 25, "an X24C01's acknowledged read stays in WaitAck until START or STOP");
    start(s, 0);
    bits(s, 0, &low_first(0x90), true);
    bits(s, 0, &ACKNOWLEDGE, true);
    bits(s, 0, &[1; 8], true);
    bits(s, 0, &[0], true);
    bits(s, 0, &[1; 8], true);
    s.line("file");
    stop(s, 0);

    part(s, 26, "an X24C02's unacknowledged read sends the old byte again");
    s.fit(&x24c02);
    start(s, 0);
    bits(s, 0, &low_first(0xA0), true);
    bits(s, 0, &low_first(8), true);
    for byte in [0x35, 0x0F] {
        bits(s, 0, &ACKNOWLEDGE, true);
        bits(s, 0, &low_first(byte), true);
    }
    bits(s, 0, &ACKNOWLEDGE, true);
    start(s, 0);
    bits(s, 0, &low_first(0xA0), true);
    bits(s, 0, &low_first(8), true);
    bits(s, 0, &ACKNOWLEDGE, true);
    start(s, 0);
    bits(s, 0, &low_first(0xA1), true);
    bits(s, 0, &ACKNOWLEDGE, true);
    for acknowledge in [1, 1, 0] {
        bits(s, 0, &[1; 8], true);
        bits(s, 0, &[acknowledge], true);
    }
    s.line("file");
    stop(s, 0);

    part(s, 27, "addresses wrap: an X24C01's read at 127, an X24C02's at 255");
    for (desc, first) in [(&x24c01, [0xFF, 0]), (&x24c02, [0xA0, 255])] {
        s.fit(desc);
        start(s, 0);
        bits(s, 0, &low_first(first[0]), true);
        if first[0] == 0xA0 {
            bits(s, 0, &low_first(first[1]), true);
            bits(s, 0, &ACKNOWLEDGE, true);
            start(s, 0);
            bits(s, 0, &low_first(0xA1), true);
        }
        bits(s, 0, &ACKNOWLEDGE, true);
        bits(s, 0, &[1; 8], true);
        s.line("file");
    }

    part(s, 28, "START sets an X24C01's address to 0; bits put in before STOP stay");
    s.fit(&x24c01);
    start(s, 0);
    bits(s, 0, &[1, 0, 1], true);
    stop(s, 0);
    s.line("file");
    start(s, 0);
    s.line("file");

    part(s, 29, "the chip's acknowledge is low from the rise of the ninth clock to its fall");
    bits(s, 0, &low_first(0x2A), true);
    s.read(0x6000);
    s.lines(0, 1, 1);
    s.read(0x6000);
    s.lines(0, 0, 1);
    s.read(0x6000);

    part(s, 30, "a fresh chip's output is 0 until the first START, STOP or bit");
    s.fit(&x24c01);
    s.read(0x6000);
    s.lines(0, 1, 0);
    s.read(0x6000);
    s.lines(0, 1, 1);
    s.read(0x6000);

    part(s, 31, "SCL and SDA in one change are a clock, and no START");
    s.fit(&x24c02);
    s.lines(0, 0, 1);
    s.lines(0, 1, 0);
    s.line("file");
}

/// 16 with an X24C02 under rule 1.
fn x24c02_by_datasheet() -> Desc {
    Desc { rule: 1, ..plain(16, 0, 3) }
}

/// A clock with a device read before it, at each of its levels and after it.
fn ninth_clock(m: &mut Master) {
    for (scl, sda) in [(0, 1), (1, 1), (0, 1)] {
        m.script.read(0x6000);
        m.set(scl, sda);
    }
    m.script.read(0x6000);
}

/// 32 to 34: an X24C02 under rule 1, against the data sheet that the rule follows; the data line, and when it stores.
fn lines_by_datasheet(script: &mut Script) {
    let mut m = Master::of(script, Wire::Lines(0));

    part(m.script, 32, "a byte is stored at the fall after its eighth bit, without STOP");
    m.script.fit(&x24c02_by_datasheet());
    m.start();
    m.send(&[0xA0, 0x21]);
    m.byte(0x5A);
    m.script.line("file");

    part(m.script, 33, "the acknowledge is low from the rise of the ninth clock to its fall");
    ninth_clock(&mut m);
    m.stop();

    part(m.script, 34, "the last bit of a read stays on the line until the fall of the ninth clock");
    m.start();
    m.send(&[0xA0, 0x21]);
    m.start_again();
    m.send(&[0xA1]);
    (0..8).for_each(|_| m.look(1));
    ninth_clock(&mut m);
    m.stop();
}

/// 35 to 38: the same; its address, its bits, and a fresh chip.
fn addresses_by_datasheet(script: &mut Script) {
    let mut m = Master::of(script, Wire::Lines(0));

    part(m.script, 35, "after one byte at the last of four cells the address is the first: 0x11 is read, not 0x22");
    for (cell, byte) in [(0x40, 0x11), (0x44, 0x22), (0x43, 0x33)] {
        m.write(cell, &[byte]);
    }
    m.start();
    m.send(&[0xA1]);
    m.receive(&[1]);
    m.stop();

    part(m.script, 36, "no write cycle: a slave byte right after a write is acknowledged");
    m.write(0x48, &[1, 2, 3, 4]);
    m.start();
    m.send(&[0xA0]);
    m.stop();

    part(m.script, 37, "a word address broken off by START after three bits has these and five old ones");
    m.start();
    m.send(&[0xA0, 0x55]);
    m.start_again();
    m.send(&[0xA0]);
    m.bits(&[1, 1]);
    m.levels(&[(0, 1), (1, 1), (1, 0)]);
    m.script.line("file");
    m.stop();

    part(m.script, 38, "a fresh chip's output is 0 until the first START, STOP or bit");
    m.script.fit(&x24c02_by_datasheet());
    m.script.read(0x6000);
    m.start();
    m.script.read(0x6000);
}

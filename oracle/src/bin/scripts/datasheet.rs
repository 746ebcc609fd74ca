//! The X24C02 under rule 1: the worked rows, every slave byte, groups of four cells, bytes that are broken off, reads,
//! register 13, and stops between any two levels. After these the same lines on an X24C01, which no rule affects.
use crate::{
    boards,
    corners::{high_first, low_first},
    master::{Master, Wire},
    rng::Rng,
    writer::Script,
};
use tetanes_core::{
    host::Desc,
    state::{Chip, State},
};

/// 16 with an X24C02, under a rule. Its file is the shortest of a board with this chip.
fn on_16(rule: u8) -> Desc {
    Desc { rule, ..boards::plain(16, 0, 3) }
}

/// 157 without the extra chip, so that a device read shows the standard chip's output.
fn on_157(rule: u8) -> Desc {
    Desc { rule, nes2: 1, ..boards::plain(157, 0, 3) }
}

pub fn all(script: &mut Script) {
    worked(script);
    groups(script);
    slave_bytes(script);
    broken_off(script);
    reads(script);
    register_13(script);
    stops(script);
    x24c01(script);
}

/// The rows that were worked out by hand, the whole state after each.
fn worked(script: &mut Script) {
    for (name, desc) in [("157", on_157(1)), ("16", on_16(1))] {
        script.about(&format!("rule 1 on {name}: two bytes written, at the last of four cells and at the first"));
        script.fit(&desc);
        let mut m = Master::of(script, Wire::Lines(0));
        worked_write(&mut m);
        for ninth in [1, 0] {
            worked_read(&mut m, ninth);
        }
        m.stop();
        script.end();
    }
    script.about("rule 1: 0xA0 low first is 0x05, and the chip is Idle");
    script.fit(&on_16(1));
    let mut m = Master::of(script, Wire::Lines(0));
    m.start();
    m.bits(&low_first(0xA0));
    m.script.line("state");
}

/// START, 0xA0, the word address 0x13, 0x5A and 0xC3, each with its ninth clock, STOP.
fn worked_write(m: &mut Master) {
    m.start();
    m.byte(0xA0);
    m.script.line("state");
    for (scl, sda) in [(0, 1), (1, 1), (0, 1)] {
        m.set(scl, sda);
        m.script.line("state");
    }
    for byte in [0x13, 0x5A, 0xC3] {
        m.byte(byte);
        m.script.line("state");
        m.look(1);
        m.script.line("state");
    }
    m.stop();
    m.script.line("state");
}

/// A random read of 0x13. `ninth` is SDA at the ninth clock of the byte: 0 acknowledges it.
fn worked_read(m: &mut Master, ninth: u8) {
    m.script.about(&format!("a random read, SDA {ninth} at its ninth clock"));
    m.start();
    m.send(&[0xA0, 0x13]);
    m.start_again();
    m.byte(0xA1);
    m.script.line("state");
    (0..9).for_each(|_| m.look(1));
    m.script.line("state");
    m.levels(&[(0, ninth), (1, ninth)]);
    m.script.line("state");
    m.set(0, ninth);
    m.script.line("state");
}

/// Written bytes stay within their four cells under rule 1, and go on through the memory under rule 0.
fn groups(script: &mut Script) {
    script.about("six bytes from 0xFE on: under rule 1 in 0xFC to 0xFF, under rule 0 on to 0x03");
    script.fit(&on_16(1));
    Master::of(script, Wire::Lines(0)).write(0xFE, &[1, 2, 3, 4, 5, 6]);
    script.line("state");
    script.fit(&on_16(0));
    let mut m = Master::of(script, Wire::Lines(0));
    m.start();
    m.bits(&low_first(0xA0));
    m.bits(&low_first(0xFE));
    m.look(1);
    for byte in 1..=6 {
        m.bits(&low_first(byte));
        m.look(1);
    }
    m.stop();
    script.line("state");
    script.about("rule 1: one to five bytes from each of four cells on, and the byte at the address after them");
    for cell in 0x7C..=0x7F {
        script.fit(&on_16(1));
        let mut m = Master::of(script, Wire::Lines(0));
        for (byte, count) in [(0x10, 5), (0x20, 1), (0x30, 2)] {
            let bytes: Vec<u8> = (byte..).take(count).collect();
            m.write(cell, &bytes);
            m.start();
            m.send(&[0xA1]);
            m.receive(&[0, 1]);
            m.stop();
        }
        script.line("file");
    }
}

/// Every slave byte, with the ninth clock after it.
fn slave_bytes(script: &mut Script) {
    script.about("rule 1: every slave byte");
    script.fit(&on_16(1));
    let mut m = Master::of(script, Wire::Lines(0));
    for byte in 0..=255 {
        m.start();
        m.byte(byte);
        m.look(1);
        m.script.line("file");
    }
    script.end();
}

/// The slave byte, the word address and a data byte broken off after each number of bits, by START and by STOP: the bits
/// stay where they were put. After the eighth bit the clock has not fallen yet, so nothing is stored.
fn broken_off(script: &mut Script) {
    script.about("rule 1: bytes that are broken off");
    for before in [&[][..], &[0xA0], &[0xA0, 0x5A]] {
        script.fit(&on_16(1));
        let mut m = Master::of(script, Wire::Lines(0));
        for count in 1..=8 {
            for (turn, sda) in [(0, 1), (1, 0)] {
                m.start_again();
                m.send(before);
                let bits = high_first(if turn == 0 { 0x6C } else { 0x93 });
                m.bits(&bits[..count - 1]);
                // the last bit's level is high before a START, low before a STOP
                m.levels(&[(0, sda), (1, sda), (1, 1 - sda)]);
                m.script.line("file");
                m.levels(&[(0, 1 - sda)]);
            }
        }
        script.line("file");
    }
}

/// A board of rule 1 with something in every cell.
fn full(desc: Desc) -> State {
    let mut state = boards::state_of(&mut Rng::new(24), desc);
    let cells = (0..=255).map(|i: u8| i.wrapping_mul(37).wrapping_add(11)).collect();
    state.standard = Some(Chip { model: 2, scl: 1, sda: 1, output: 1, cells, ..Chip::default() });
    state
}

/// Reads that are acknowledged and not, over the end of four cells and of the memory; clocks after a read has ended; a
/// read at the address that the last one left.
fn reads(script: &mut Script) {
    script.about("rule 1: reads, acknowledged and not");
    script.resume_state(&full(on_157(1)));
    let mut m = Master::of(script, Wire::Lines(0));
    for (cell, ninths) in
        [(0x0E, &[0, 0, 0, 1][..]), (0xFE, &[0, 0, 0, 1][..]), (0xFF, &[1, 0][..]), (0x80, &[0, 1, 1][..])]
    {
        m.read(cell, ninths);
        m.script.line("file");
        m.start();
        m.send(&[0xA1]);
        m.receive(&[1]);
        m.script.line("file");
        m.stop();
    }
    m.script.about("rule 1: a read goes on by one after a write too");
    m.write(0x43, &[0xEE]);
    m.start();
    m.send(&[0xA1]);
    m.receive(&[0, 0, 0, 0, 1]);
    m.stop();
    script.end();
}

/// A write and a read through register 13, with every access; on 157 beside the extra chip, which takes its SDA too.
fn register_13(script: &mut Script) {
    script.about("rule 1: register 13, with every access");
    for desc in [on_16(1), Desc { nes2: 0, ..on_157(1) }] {
        for access in 0..=4 {
            script.resume_state(&full(Desc { access, ..desc.clone() }));
            let mut m = Master::of(script, Wire::Register13);
            m.write(0x27, &[0x96, 0x0F]);
            m.read(0x26, &[0, 1]);
            script.line("file");
        }
    }
}

/// A stop between any two levels of a write and a read: the chip goes on from its file.
fn stops(script: &mut Script) {
    script.about("rule 1: stops within a write and a read");
    script.resume_state(&full(on_16(1)));
    let mut m = Master { after_each: Some("stop"), ..Master::of(script, Wire::Lines(0)) };
    m.write(0x61, &[0xB7, 0x1D, 0xE2]);
    m.read(0x62, &[0, 0, 1]);
    script.end();
}

/// An X24C01 under both rules: low bits first, and high bits first, which it takes for another cell.
fn x24c01(script: &mut Script) {
    for (name, chip, desc) in [("159", 0, boards::plain(159, 0, 3)), ("157, extra", 1, boards::plain(157, 0, 3))] {
        for rule in [0, 1] {
            script.about(&format!("an X24C01 ({name}) under rule {rule}"));
            script.fit(&Desc { rule, ..desc.clone() });
            // lets the data line of the standard chip go, so that a device read shows the other's
            Master::of(script, Wire::Lines(0)).stop();
            let mut m = Master::of(script, Wire::Lines(chip));
            for order in [low_first, high_first] {
                for (first, ninth) in [(0x2A, 1), (0xAA, 0)] {
                    m.start_again();
                    m.bits(&order(first));
                    m.look(1);
                    m.bits(&order(0x81));
                    m.look(ninth);
                    m.receive(&[1]);
                    m.stop();
                    m.script.line("file");
                }
            }
        }
    }
}

//! Directed corners: each thing that a wrong board would do otherwise. Those that need many lines are made here, the
//! others are corners.txt.
use crate::{
    boards, damage, fitting,
    rng::Rng,
    writer::{Script, UNKNOWN_KIND},
};
use tetanes_core::{
    host::{Desc, Event},
    state::CLOCK_LIMIT,
};

pub fn all(script: &mut Script) {
    let text = include_str!("corners.txt");
    script.text.push_str(text);
    script.count(text);
    clock_limit(script);
    long_lines(script);
    for fault in damage::FAULTS {
        script.line(fault);
    }
    refused_events(script);
    fitting::all(script);
    digit_counts(script);
    modules_read(script);
    slave_bytes(script);
    chip_corners(script);
}

fn clock_limit(script: &mut Script) {
    let desc =
        Desc { mapper: 157, sub: 0, nes2: 1, mir: 0, access: 4, sizes: [262_144, 0, 8192, 0, 1024, 0, 0], rule: 0 };
    let mut state = boards::state_of(&mut Rng::new(62), desc);
    let reader = state.reader.as_mut().unwrap();
    (reader.clock, reader.insert_clock) = (CLOCK_LIMIT - 5, CLOCK_LIMIT - 1005);
    state.regs.counting = 1;
    state.regs.pending = 0;
    state.regs.counter = 3;
    script.resume_state(&state);
    for count in [6, u32::MAX, 5, 1, 0] {
        script.clocks(count);
        script.read(0x6000);
    }
    script.insert();
    script.read(0x6000);
    script.line("stop");
    script.clocks(1);
    script.end();
}

/// A line of the longest length, and one a byte longer.
fn long_lines(script: &mut Script) {
    for length in [4096, 4097] {
        let mut line = String::from("read 24576 #");
        line.push_str(&"-".repeat(length - line.len()));
        script.line(&line);
        script.events += u64::from(length == 4096);
    }
    script.line(&format!("resume {}", "0".repeat(4089)));
    script.line(&format!("resume {}", "0".repeat(4088)));
    script.line(&" ".repeat(4097));
}

/// Each refusal of an event, and the order of the rules, on boards with and without the parts.
fn refused_events(script: &mut Script) {
    for (mapper, nes2) in [(16, 0), (153, 0), (157, 0), (157, 1), (159, 0)] {
        script.about(&format!("refused events on {mapper}"));
        script.fit(&Desc {
            mapper,
            sub: 5,
            nes2,
            mir: 0,
            access: 3,
            sizes: [262_144, 0, 8192, 256, 1024, 0, 0],
            rule: 0,
        });
        script.write(0x800A, 1);
        for pending in [false, true] {
            if pending {
                script.clocks(1);
            }
            for (number, digits) in [(1, 21), (1, 20), (1, 65_536), (1, u32::MAX), (1, 269)] {
                script.card(number, digits);
            }
            script.insert();
            for (chip, scl, sda) in
                [(0, 2, 0), (0, 0, 2), (0, 255, 255), (1, 2, 0), (1, 1, 1), (2, 0, 0), (2, 2, 2), (255, 0, 1)]
            {
                script.lines(chip, scl, sda);
            }
            for kind in [UNKNOWN_KIND, 8, 128, 255] {
                script.event(&Event { kind, addr: 0x6000, value: 1, count: 21, number: 1, chip: 9, scl: 9, sda: 9 });
            }
            // junk in the fields that a kind does not name
            script.event(&Event {
                kind: 0,
                addr: 0x800B,
                value: 9,
                count: u32::MAX,
                number: u64::MAX,
                chip: 9,
                scl: 9,
                sda: 9,
            });
            script.event(&Event {
                kind: 1,
                addr: 0x6000,
                value: 9,
                count: u32::MAX,
                number: u64::MAX,
                chip: 9,
                scl: 9,
                sda: 9,
            });
            script.event(&Event {
                kind: 2,
                addr: 0x800D,
                value: 9,
                count: 2,
                number: u64::MAX,
                chip: 9,
                scl: 9,
                sda: 9,
            });
            script.event(&Event {
                kind: 4,
                addr: 0x800D,
                value: 9,
                count: 99,
                number: u64::MAX,
                chip: 9,
                scl: 9,
                sda: 9,
            });
            script.event(&Event {
                kind: 5,
                addr: 0x800D,
                value: 9,
                count: 99,
                number: u64::MAX,
                chip: 0,
                scl: 1,
                sda: 0,
            });
        }
        script.end();
    }
}

/// Every digit count with numbers of every length.
fn digit_counts(script: &mut Script) {
    script.about("every digit count from 0 to 21 with numbers of every length");
    script.fit(&Desc {
        mapper: 157,
        sub: 0,
        nes2: 1,
        mir: 0,
        access: 4,
        sizes: [262_144, 0, 8192, 0, 1024, 0, 0],
        rule: 0,
    });
    for digits in 0..=21 {
        for length in 0..=20_u32 {
            // 9173950628.. cut to a length, and 0
            let number = if length == 0 { 0 } else { 9_173_950_628_417_395_062 / 10_u64.pow(19 - length.min(19)) };
            script.card(if length == 20 { u64::MAX } else { number }, digits);
            script.insert();
            script.line("bars");
        }
    }
    script.about("every first digit of a 13-digit card, every digit in every place of a short one");
    for first in 0..10 {
        script.card(first * 1_000_000_000_000 + 234_567_890_123, 13);
        script.insert();
        script.line("bars");
        script.card(first * 1_111_111 % 10_000_000, 7);
        script.insert();
        script.line("bars");
    }
    script.about("every digit in every place of a 13-digit card, under every first digit");
    for first in 0..10 {
        for second in 0..10 {
            let number = (0..12).fold(first, |number, place| 10 * number + (second + place) % 10);
            script.card(number, 13);
            script.insert();
            script.line("bars");
        }
    }
    script.end();
}

/// Each module of a card read in turn, by the game and with its number, at the last clock of each and the first of the
/// next, and past the last.
fn modules_read(script: &mut Script) {
    for (number, digits) in [(4_901_234_567_894, 13), (4_901_234, 7), (96_385_074, 8)] {
        script.card(number, digits);
        script.insert();
        for _ in 0..162 {
            for clocks in [999, 1] {
                script.read(0x6000);
                script.line("module");
                script.clocks(clocks);
            }
        }
    }
    script.end();
}

pub fn start(script: &mut Script, chip: u8) {
    for (scl, sda) in [(0, 1), (1, 1), (1, 0), (0, 0)] {
        script.lines(chip, scl, sda);
    }
}

pub fn stop(script: &mut Script, chip: u8) {
    for (scl, sda) in [(0, 0), (1, 0), (1, 1)] {
        script.lines(chip, scl, sda);
    }
}

/// Bits in the order given; `read` looks at the output while SCL is high.
pub fn bits(script: &mut Script, chip: u8, bits: &[u8], read: bool) {
    for sda in bits {
        script.lines(chip, 0, *sda);
        script.lines(chip, 1, *sda);
        if read {
            script.read(0x6000);
        }
        script.lines(chip, 0, *sda);
    }
}

pub fn low_first(byte: u8) -> [u8; 8] {
    std::array::from_fn(|i| byte >> i & 1)
}

pub fn high_first(byte: u8) -> [u8; 8] {
    std::array::from_fn(|i| byte >> (7 - i) & 1)
}

/// All slave bytes of an X24C02, each followed by one clock.
fn slave_bytes(script: &mut Script) {
    script.about("every slave byte");
    script.fit(&boards::plain(16, 0, 3));
    for byte in 0..=255 {
        start(script, 0);
        bits(script, 0, &low_first(byte), false);
        bits(script, 0, &[1], true);
    }
    script.end();
}

fn chip_corners(script: &mut Script) {
    let x24c02 = boards::plain(16, 0, 3);
    let x24c01 = boards::plain(159, 0, 3);
    script.about("X24C02, slave bits 1,0,1,0,0,0,0,0: 0x05, Idle");
    script.fit(&x24c02);
    start(script, 0);
    bits(script, 0, &[1, 0, 1, 0, 0, 0, 0, 0], true);
    script.line("file");
    script
        .about("X24C02: the address right after a write slave byte; three bytes over the end, read back; a rereading");
    script.fit(&x24c02);
    for acknowledge in [false, true] {
        start(script, 0);
        bits(script, 0, &low_first(0xA0), true);
        if acknowledge {
            bits(script, 0, &[1], true);
        }
        bits(script, 0, &low_first(254), true);
        for byte in [0x81, 0x42, 0x24] {
            bits(script, 0, &[1], true);
            bits(script, 0, &low_first(byte), true);
        }
        bits(script, 0, &[1], true);
        stop(script, 0);
        script.line("file");
    }
    start(script, 0);
    bits(script, 0, &low_first(0xA0), true);
    bits(script, 0, &low_first(254), true);
    bits(script, 0, &[1], true);
    start(script, 0);
    bits(script, 0, &low_first(0xA1), true);
    for acknowledge in [1, 0, 0, 1, 1, 0] {
        bits(script, 0, &[1], true);
        bits(script, 0, &[1; 8], true);
        bits(script, 0, &[acknowledge], true);
    }
    stop(script, 0);
    script.end();
    script.about(
        "X24C01: the eighth data bit, then SCL falls: stored; START before that fall: kept; one byte for a START",
    );
    script.fit(&x24c01);
    for early in [false, true] {
        start(script, 0);
        bits(script, 0, &low_first(0x2A), true);
        bits(script, 0, &[1], true);
        bits(script, 0, &[1, 0, 0, 1, 0, 1, 0], true);
        script.lines(0, 0, 1);
        script.lines(0, 1, 1);
        if early {
            script.lines(0, 1, 0);
        }
        script.lines(0, 0, 1);
        script.line("file");
        bits(script, 0, &[1], true);
        bits(script, 0, &low_first(0x3C), true);
        stop(script, 0);
        script.line("file");
    }
    script.about("X24C01: a read at 127, acknowledged, and eight clocks more: WaitAck until START or STOP");
    start(script, 0);
    bits(script, 0, &low_first(0xFF), true);
    bits(script, 0, &[1], true);
    bits(script, 0, &[1; 8], true);
    bits(script, 0, &[0], true);
    bits(script, 0, &[1; 8], true);
    script.line("file");
    stop(script, 0);
    script.end();
    script.about("157: both chips let SDA go: 16; one of them acknowledges: 0; a light module besides: 8 more");
    script.fit(&boards::plain(157, 0, 3));
    for _ in 0..2 {
        for (chip, byte) in [(0, 0xA1), (1, 0x2A)] {
            script.read(0x6000);
            start(script, chip);
            script.read(0x6000);
            bits(script, chip, &low_first(byte), false);
            bits(script, chip, &[1], true);
        }
        script.insert();
    }
    script.about("157: both chips by registers; the value is the module, or 16 times both outputs");
    script.fit(&boards::plain(157, 0, 3));
    for value in [0x60, 0x20, 0x60, 0x00, 0x40, 0x60] {
        script.write(0x800D, value);
        script.read(0x6000);
        for register in 0..8 {
            script.write(0x8000 | register, 8);
            script.read(0x6000);
            script.write(0x8000 | register, 0);
            script.read(0x6000);
        }
    }
    script.end();
}

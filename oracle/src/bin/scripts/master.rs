//! A master that follows the X24C02's data sheet: high bits first, and a ninth clock after every byte.
use crate::{corners::high_first, writer::Script};

/// Where the levels go: line events of a chip, or register 13.
#[derive(Clone, Copy)]
pub enum Wire {
    Lines(u8),
    Register13,
}

/// Drives a chip by the sheet's transactions, or by parts of them.
pub struct Master<'a> {
    pub script: &'a mut Script,
    pub wire: Wire,
    /// Written after every change of the levels.
    pub after_each: Option<&'static str>,
}

impl Master<'_> {
    pub fn of(script: &mut Script, wire: Wire) -> Master<'_> {
        Master { script, wire, after_each: None }
    }

    pub fn set(&mut self, scl: u8, sda: u8) {
        match self.wire {
            Wire::Lines(chip) => self.script.lines(chip, scl, sda),
            Wire::Register13 => self.script.write(0x800D, scl << 5 | sda << 6),
        }
        if let Some(line) = self.after_each {
            self.script.line(line);
        }
    }

    pub fn levels(&mut self, levels: &[(u8, u8)]) {
        for (scl, sda) in levels {
            self.set(*scl, *sda);
        }
    }

    pub fn start(&mut self) {
        self.levels(&[(1, 1), (1, 0), (0, 0)]);
    }

    /// A START without a STOP before it: both lines go up first.
    pub fn start_again(&mut self) {
        self.levels(&[(0, 1), (1, 1)]);
        self.start();
    }

    pub fn stop(&mut self) {
        self.levels(&[(0, 0), (1, 0), (1, 1)]);
    }

    pub fn bits(&mut self, bits: &[u8]) {
        for sda in bits {
            self.levels(&[(0, *sda), (1, *sda), (0, *sda)]);
        }
    }

    /// Eight bits, the highest first.
    pub fn byte(&mut self, byte: u8) {
        self.bits(&high_first(byte));
    }

    /// A clock with a device read while SCL is high: a bit of the chip's, or its acknowledge where SDA is let go.
    pub fn look(&mut self, sda: u8) {
        self.levels(&[(0, sda), (1, sda)]);
        self.script.read(0x6000);
        self.set(0, sda);
    }

    /// Bytes with the ninth clock after each.
    pub fn send(&mut self, bytes: &[u8]) {
        for byte in bytes {
            self.byte(*byte);
            self.look(1);
        }
    }

    /// A whole write.
    pub fn write(&mut self, cell: u8, bytes: &[u8]) {
        self.start();
        self.send(&[0xA0, cell]);
        self.send(bytes);
        self.stop();
    }

    /// Bytes out of the chip; each number is SDA at the ninth clock, 0 where the master acknowledges.
    pub fn receive(&mut self, ninths: &[u8]) {
        for ninth in ninths {
            for _ in 0..8 {
                self.look(1);
            }
            self.look(*ninth);
        }
    }

    /// A read from a cell on.
    pub fn read(&mut self, cell: u8, ninths: &[u8]) {
        self.start();
        self.send(&[0xA0, cell]);
        self.start_again();
        self.send(&[0xA1]);
        self.receive(ninths);
        self.stop();
    }
}

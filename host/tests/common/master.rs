//! A master of the two lines after Xicor's data sheet for the X24C02: it knows nothing of the chip but the lines, and looks at the data
//! line where the game does, in bit 4 of a device read.
use molbitak::Board;

/// The way to the lines of the standard chip.
#[derive(Clone, Copy, Debug)]
pub enum Wire {
    Lines,
    Register13,
}

pub struct Master {
    pub board: Board,
    pub wire: Wire,
}

impl Master {
    /// Both lines go up. An extra chip lets the data line go, and its clock is low, so that register 13 tells it nothing.
    pub fn on(mut board: Board, wire: Wire) -> Master {
        if board.extra_eeprom().is_some() {
            for (scl, sda) in [(1, 0), (1, 1), (0, 1)] {
                board.lines(1, scl, sda).unwrap();
            }
        }
        let mut master = Master { board, wire };
        master.stop();
        master
    }

    fn set(&mut self, scl: u8, sda: u8) {
        match self.wire {
            Wire::Lines => self.board.lines(0, scl, sda).unwrap(),
            Wire::Register13 => self.board.write_register(0x800D, scl << 5 | sda << 6),
        }
    }

    pub fn levels(&mut self, levels: &[(u8, u8)]) {
        levels.iter().for_each(|(scl, sda)| self.set(*scl, *sda));
    }

    /// The data line falls while the clock is high. Whatever ran before, both lines go up first.
    pub fn start(&mut self) {
        self.levels(&[(0, 1), (1, 1), (1, 0), (0, 0)]);
    }

    /// The data line rises while the clock is high.
    pub fn stop(&mut self) {
        self.levels(&[(0, 0), (1, 0), (1, 1)]);
    }

    /// Eight bits, the highest first.
    pub fn bits(&mut self, byte: u8) {
        for place in (0..8).rev() {
            let sda = byte >> place & 1;
            self.levels(&[(0, sda), (1, sda), (0, sda)]);
        }
    }

    /// A clock, and the level of the data line while it is high. SDA 1 lets the line go.
    pub fn ninth_clock(&mut self, sda: u8) -> u8 {
        self.levels(&[(0, sda), (1, sda)]);
        let level = self.board.prg_peek(0x6000).expect("the access lets the device be read") >> 4 & 1;
        self.set(0, sda);
        level
    }

    /// Sends a byte, and tells whether the chip acknowledges it: it pulls the data line low at the ninth clock.
    pub fn send(&mut self, byte: u8) -> bool {
        self.bits(byte);
        self.ninth_clock(1) == 0
    }

    /// Takes the eight bits of a byte, the highest first. The ninth clock is the caller's.
    pub fn receive(&mut self) -> u8 {
        (0..8).fold(0, |byte, _| byte << 1 | self.ninth_clock(1))
    }

    /// A byte write or a page write: the slave byte, the word address, the bytes. Tells whether all were acknowledged.
    pub fn write(&mut self, cell: u8, bytes: &[u8]) -> bool {
        self.start();
        let acknowledged = [0xA0, cell].iter().chain(bytes).all(|byte| self.send(*byte));
        self.stop();
        acknowledged
    }

    /// A read of so many bytes, from a cell on or, without one, from the address that the chip is at. All but the last are acknowledged.
    /// Nothing where the chip does not acknowledge.
    pub fn read(&mut self, cell: Option<u8>, count: usize) -> Option<Vec<u8>> {
        self.start();
        if let Some(cell) = cell {
            if !self.send(0xA0) || !self.send(cell) {
                self.stop();
                return None;
            }
            self.start();
        }
        let answers = self.send(0xA1);
        let mut bytes = Vec::new();
        while answers && bytes.len() < count {
            bytes.push(self.receive());
            self.ninth_clock(u8::from(bytes.len() == count));
        }
        self.stop();
        answers.then_some(bytes)
    }
}

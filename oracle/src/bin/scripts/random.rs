//! Random boards: fitted or resumed in any valid state, played for a while, and compared whole at the end.
use crate::{
    boards,
    chips::{Driver, Port},
    damage, decode,
    rng::Rng,
    writer::{Script, UNKNOWN_KIND},
};
use tetanes_core::{
    host::{Desc, Event},
    state::{Fitted, fitted},
    state_file::{encode, encode_old},
};

struct Player<'a> {
    script: &'a mut Script,
    rng: Rng,
    /// Says where module reads stand, so that all else is of the seed alone.
    module_reads: Rng,
    /// The same for `decode` lines, and what they say.
    decodes: Rng,
    /// The same for rules, and for files without one.
    rules: Rng,
    desc: Desc,
    parts: Fitted,
    driver: Driver,
    /// How many clocks of large counts may still be run: the published board takes them one by one.
    clocks_left: u64,
    /// Prints little between the ends of boards.
    terse: bool,
}

/// Random boards until the script has so many event lines.
pub fn boards(script: &mut Script, seed: u64, events: u64, terse: bool) {
    let desc = Desc::default();
    let parts = fitted(&desc);
    let clocks_left = 4_000 * events;
    let (rng, module_reads) = (Rng::new(seed), Rng::new(!seed));
    let (decodes, rules) = (Rng::new(seed ^ 0xDEC0_DE00_0000_0000), Rng::new(seed ^ 0x24C0_2000_0000_0000));
    let driver = Driver::new();
    let mut player = Player { script, rng, module_reads, decodes, rules, desc, parts, driver, clocks_left, terse };
    while player.script.events < events {
        player.board(events);
    }
}

impl Player<'_> {
    /// A board from its first line to its last.
    fn board(&mut self, end: u64) {
        if self.rng.once_in(12) {
            let refused = boards::refused(&mut self.rng);
            self.script.fit(&Desc { rule: self.rules.pick(&[0, 0, 1, 2, 255]), ..refused });
            if self.rng.once_in(2) {
                self.play(3);
                self.look();
            }
        }
        self.desc = boards::description(&mut self.rng);
        self.desc.rule = u8::from(self.rules.once_in(4));
        self.parts = fitted(&self.desc);
        if self.rules.once_in(16) {
            self.script.fit(&Desc { rule: self.rules.pick(&[2, 3, 128, 255]), ..self.desc.clone() });
        }
        self.driver = Driver::new();
        self.driver.rule = self.desc.rule;
        self.driver.breaks = self.rng.pick(&[0, 400, 100, 25]);
        self.driver.window = self.rng.pick(&[0x8000, 0x8000, 0x8000, 0x6000, 0xFFF0, 0x7FF0]);
        if self.rng.once_in(3) {
            self.resume();
        } else {
            self.script.fit(&self.desc);
        }
        let length = if self.terse { self.rng.within(800, 4000) } else { self.rng.within(20, 1000) };
        let last = (self.script.events + length).min(end);
        while self.script.events < last {
            self.play(1);
            if self.rng.once_in(if self.terse { 60 } else { 8 }) {
                self.look();
            }
        }
        self.script.end();
    }

    fn play(&mut self, times: u32) {
        for _ in 0..times {
            // a transaction is a hundred events, the others a few
            match self.rng.below(32) {
                0..10 => self.registers(),
                10..14 => self.reads(),
                14..19 => self.clocks(),
                19..23 => self.interrupt(),
                23..25 => self.card(),
                25..27 if self.parts.reader => self.card(),
                25..29 => self.any_event(),
                29 => self.raw_lines(),
                _ if self.parts.standard.is_some() => self.transaction(),
                _ => self.registers(),
            }
            self.module_read();
            if self.decodes.once_in(if self.terse { 240 } else { 60 }) {
                self.script.decode(&decode::any(&mut self.decodes));
            }
        }
    }

    /// A module read, now and then; more often where there is a reader.
    fn module_read(&mut self) {
        let often = if self.parts.reader { 1 } else { 4 };
        if self.module_reads.once_in(often * if self.terse { 20 } else { 6 }) {
            self.script.line("module");
        }
    }

    fn address(&mut self) -> u16 {
        let register = self.rng.below(16) as u16;
        match self.rng.below(10) {
            0 => self.rng.next() as u16,
            1 => self.rng.pick(&[0x5FF0, 0x0000, 0x4010]) | register,
            2 | 3 => self.rng.pick(&[0x6000, 0x7FF0, 0x6120]) | register,
            4 => self.rng.pick(&[0xFFF0, 0xBFF0, 0xC000]) | register,
            _ => 0x8000 | register,
        }
    }

    fn registers(&mut self) {
        for _ in 0..self.rng.within(1, 10) {
            let value =
                if self.rng.once_in(4) { self.rng.pick(&[0, 1, 8, 0x20, 0x40, 0x60, 255]) } else { self.rng.byte() };
            let addr = self.address();
            self.script.write(addr, value);
        }
    }

    fn reads(&mut self) {
        for _ in 0..self.rng.within(1, 3) {
            let addr = if self.rng.once_in(4) { self.address() } else { 0x6000 | self.rng.next() as u16 & 0x1FFF };
            self.script.read(addr);
        }
    }

    /// Clocks. Large counts come out of a budget, and become small ones when they would take most of it.
    fn run_clocks(&mut self, count: u64) {
        let large = count > 100_000;
        let count = if large && count > self.clocks_left / 4 { count % 100_000 } else { count };
        if large {
            self.clocks_left = self.clocks_left.saturating_sub(count);
        }
        self.script.clocks(count as u32);
    }

    fn clocks(&mut self) {
        for _ in 0..self.rng.within(1, 4) {
            let count = match self.rng.below(16) {
                0 => 0,
                1..6 => 1,
                6..10 => self.rng.below(20),
                10 => 1000,
                11 => self.rng.pick(&[999, 1001, 65_535, 65_536, 65_537]),
                12 => self.rng.sized(32),
                _ => self.rng.sized(17),
            };
            self.run_clocks(count);
        }
    }

    /// A counter set near a number of clocks, which are then run.
    fn interrupt(&mut self) {
        let counter = if self.rng.once_in(2) { self.rng.below(8) } else { self.rng.sized(16) } as u16;
        let order = self.rng.bit();
        let [low, high] = counter.to_le_bytes();
        for (register, value) in [(11, low), (12, high), (10, order)] {
            if !self.rng.once_in(12) {
                self.script.write(self.driver.window | register, value);
            }
        }
        self.run_clocks(u64::from(counter));
        for _ in 0..self.rng.within(1, 3) {
            self.run_clocks(1);
        }
        if self.rng.once_in(2) {
            let value = self.rng.bit();
            self.script.write(self.driver.window | 10, value);
        }
    }

    /// A card, inserted or not, and reads while it passes.
    fn card(&mut self) {
        let number = boards::number(&mut self.rng);
        let digits = match self.rng.below(12) {
            0 => self.rng.pick(&[21, 22, 255, 256, 269, 65_535, 65_536, u32::MAX]),
            1..4 => 13,
            4..6 => self.rng.pick(&[7, 8, 12]),
            _ => self.rng.below(21) as u32,
        };
        self.script.card(number, digits);
        if self.rng.once_in(8) {
            return;
        }
        self.script.insert();
        if self.rng.once_in(8) {
            self.script.line("bars");
        }
        if self.parts.reader {
            for _ in 0..self.rng.pick(&[0, 2, 8, 40]) {
                let count = self.rng.pick(&[999, 1000, 1000, 1000, 1001, 3000, 7777]);
                self.run_clocks(count);
                self.script.read(0x6000);
                self.module_read();
            }
        }
    }

    /// A record with something in every field, of any kind; unknown ones are [`UNKNOWN_KIND`] and above.
    fn any_event(&mut self) {
        for _ in 0..self.rng.within(1, 3) {
            let kind = match self.rng.below(10) {
                0 => self.rng.byte().max(UNKNOWN_KIND),
                1 => UNKNOWN_KIND,
                2 => 5,
                _ => self.rng.below(6) as u8,
            };
            let mut count = self.rng.sized(32) as u32;
            if kind == 2 {
                count = self.rng.sized(12) as u32;
            } else if kind == 3 && !self.rng.once_in(4) {
                count %= 21;
            }
            let (addr, number) = (self.address(), boards::number(&mut self.rng));
            let rng = &mut self.rng;
            let mut level = || if rng.once_in(8) { rng.byte() } else { rng.bit() };
            let event = Event { kind, addr, count, number, value: level(), chip: level(), scl: level(), sda: level() };
            self.script.event(&event);
        }
    }

    fn raw_lines(&mut self) {
        let chip = if self.rng.once_in(10) { self.rng.byte() } else { self.rng.bit() };
        for _ in 0..self.rng.within(1, 40) {
            let level = if self.rng.once_in(60) { 2 } else { self.rng.bit() };
            self.script.lines(chip, level, self.rng.bit());
        }
    }

    fn transaction(&mut self) {
        let extra = self.parts.extra.is_some() && self.rng.once_in(2);
        let (port, model) = if extra {
            (self.rng.pick(&[Port::Lines(1), Port::ExtraRegisters]), 1)
        } else {
            (self.rng.pick(&[Port::Lines(0), Port::Register13]), self.parts.standard.unwrap_or(2))
        };
        let model = if self.rng.once_in(30) { 3 - model } else { model };
        self.driver.transaction(self.script, &mut self.rng, port, model);
    }

    /// Lines that are no events.
    fn look(&mut self) {
        match self.rng.below(if self.terse { 8 } else { 16 }) {
            0..4 => self.script.line("stop"),
            4 => self.script.line("counts"),
            5 => self.script.line("bars"),
            6 => damage::faulty_line(self.script, &mut self.rng, !self.terse),
            7 | 8 if boards::image_length(&self.desc) <= 1 << 20 || self.rng.once_in(8) => self.image(),
            7..10 => self.script.line("pages"),
            10 | 11 => self.script.line("file"),
            12 => self.script.line("state"),
            13 | 14 => {
                let state = boards::state_of(&mut self.rng, self.desc.clone());
                let encode = if self.rules.once_in(4) { encode_old } else { encode };
                let file = if self.rng.once_in(2) {
                    damage::file(&mut self.rng, &encode(&state))
                } else {
                    encode(&damage::state(&mut self.rng, state))
                };
                self.script.resume(&file);
            }
            _ => self.resume(),
        }
    }

    /// The board in any valid state.
    fn resume(&mut self) {
        let state = boards::state_of(&mut self.rng, self.desc.clone());
        if self.desc.rule == 0 && self.rules.once_in(8) {
            self.script.resume_old_state(&state);
        } else {
            self.script.resume_state(&state);
        }
    }

    /// Where the image is cut: mostly where what can be written starts.
    fn cut(&mut self) -> u32 {
        let right = self.desc.ram_start() as u32;
        match self.rng.below(12) {
            0 => right - 1,
            1 => right + 1,
            2 => self.rng.next() as u32,
            _ => right,
        }
    }

    /// Views and pokes, of the image that there is or of a new one.
    fn image(&mut self) {
        if !self.rng.once_in(5) {
            self.script.line("image");
        }
        for _ in 0..self.rng.within(1, 4) {
            let space = self.rng.pick(&["prg", "chr"]);
            let addr = if self.rng.once_in(3) {
                self.rng.next() as u16
            } else {
                self.rng.pick(&[0x6000, 0x8000, 0xC000, 0x0000, 0x2400, 0x2FFF])
            };
            let value = self.rng.byte();
            let shown = self.rng.once_in(if self.terse { 6 } else { 2 });
            if self.rng.once_in(2) {
                self.script.poke(space, addr, value);
                if shown {
                    self.script.view(space, addr);
                }
            } else {
                let cut = self.cut();
                self.script.poke2(space, addr, value, cut);
                if shown {
                    self.script.view2(space, addr, cut);
                }
            }
        }
    }
}

//! A script that grows by commands, with short lines.
use std::fmt::Write;
use tetanes_core::{
    host::{Desc, Event, hex},
    state::State,
    state_file::{encode, encode_old},
};

/// The first of the kinds that scripts use as unknown ones.
pub const UNKNOWN_KIND: u8 = 7;

#[derive(Default)]
pub struct Script {
    pub text: String,
    /// How many event lines there are.
    pub events: u64,
}

impl Script {
    pub fn line(&mut self, line: &str) {
        self.text.push_str(line);
        self.text.push('\n');
    }

    /// Counts the event lines of a text that was put in as it is.
    pub fn count(&mut self, text: &str) {
        const EVENTS: [&str; 7] = ["write", "read", "clocks", "card", "insert", "lines", "event"];
        let first = |line: &&str| line.split_whitespace().next().is_some_and(|first| EVENTS.contains(&first));
        self.events += text.lines().filter(first).count() as u64;
    }

    pub fn about(&mut self, what: &str) {
        writeln!(self.text, "# {what}").unwrap();
    }

    pub fn fit(&mut self, d: &Desc) {
        write!(self.text, "fit {} {} {} {} {}", d.mapper, d.sub, d.nes2, d.mir, d.access).unwrap();
        for size in d.sizes {
            write!(self.text, " {size}").unwrap();
        }
        writeln!(self.text, " {}", d.rule).unwrap();
    }

    pub fn write(&mut self, addr: u16, value: u8) {
        self.event_line(format_args!("write {addr} {value}"));
    }

    pub fn read(&mut self, addr: u16) {
        self.event_line(format_args!("read {addr}"));
    }

    pub fn clocks(&mut self, count: u32) {
        self.event_line(format_args!("clocks {count}"));
    }

    pub fn card(&mut self, number: u64, digits: u32) {
        self.event_line(format_args!("card {number} {digits}"));
    }

    pub fn insert(&mut self) {
        self.event_line(format_args!("insert"));
    }

    pub fn lines(&mut self, chip: u8, scl: u8, sda: u8) {
        self.event_line(format_args!("lines {chip} {scl} {sda}"));
    }

    pub fn event(&mut self, e: &Event) {
        self.event_line(format_args!(
            "event {} {} {} {} {} {} {} {}",
            e.kind, e.addr, e.value, e.count, e.number, e.chip, e.scl, e.sda
        ));
    }

    fn event_line(&mut self, line: std::fmt::Arguments) {
        writeln!(self.text, "{line}").unwrap();
        self.events += 1;
    }

    pub fn resume(&mut self, file: &[u8]) {
        writeln!(self.text, "resume {}", hex(file)).unwrap();
    }

    pub fn resume_state(&mut self, state: &State) {
        self.resume(&encode(state));
    }

    /// Resumes the file that the state had when there was no rule.
    pub fn resume_old_state(&mut self, state: &State) {
        self.resume(&encode_old(state));
    }

    pub fn decode(&mut self, modules: &[u8]) {
        writeln!(self.text, "decode {}", hex(modules)).unwrap();
    }

    pub fn view(&mut self, space: &str, addr: u16) {
        writeln!(self.text, "view {space} {addr}").unwrap();
    }

    pub fn poke(&mut self, space: &str, addr: u16, value: u8) {
        writeln!(self.text, "poke {space} {addr} {value}").unwrap();
    }

    pub fn view2(&mut self, space: &str, addr: u16, cut: u32) {
        writeln!(self.text, "view2 {space} {addr} {cut}").unwrap();
    }

    pub fn poke2(&mut self, space: &str, addr: u16, value: u8, cut: u32) {
        writeln!(self.text, "poke2 {space} {addr} {value} {cut}").unwrap();
    }

    /// What is compared at the end of a board.
    pub fn end(&mut self) {
        for line in ["counts", "state", "file", "pages"] {
            self.line(line);
        }
    }
}

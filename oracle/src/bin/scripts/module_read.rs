//! Module reads: the module's number, the clocks spent in it, its light. The worked examples are in corners.txt, and each
//! module of whole cards is in corners.rs.
use crate::{boards, rng::Rng, writer::Script};
use tetanes_core::{
    host::Desc,
    state::{CLOCK_LIMIT, State},
};

/// 157 with the reader and one chip, so that its files are short.
fn datach(access: u8) -> Desc {
    Desc { mapper: 157, sub: 0, nes2: 1, mir: 0, access, sizes: [262_144, 0, 8192, 0, 1024, 0, 0], rule: 0 }
}

/// A board whose reader is at a clock, so many clocks after the insertion, and shows these modules.
fn reader_at(clock: u64, elapsed: u64, modules: &[u8]) -> State {
    let mut state = boards::state_of(&mut Rng::new(clock ^ elapsed), datach(4));
    let reader = state.reader.as_mut().unwrap();
    (reader.clock, reader.insert_clock) = (clock, clock - elapsed);
    reader.modules = modules.to_vec();
    state
}

fn resumed(script: &mut Script, clock: u64, elapsed: u64, modules: &[u8]) {
    script.resume_state(&reader_at(clock, elapsed, modules));
    script.line("module");
}

fn card(script: &mut Script) {
    script.card(4_901_234_567_894, 13);
    script.insert();
}

pub fn all(script: &mut Script) {
    accesses(script);
    mappers(script);
    insertions(script);
    between_events(script);
    stops(script);
    at_the_limit(script);
    far(script);
}

/// Every access: None and Write shut the device read, and not this one.
fn accesses(script: &mut Script) {
    script.about("the module read with every access");
    for access in 0..=4 {
        script.fit(&datach(access));
        card(script);
        for clocks in [0, 33_999, 1] {
            script.clocks(clocks);
            script.read(0x6000);
            script.line("module");
        }
    }
}

/// Every mapper: without a reader all three are 0, whatever was run.
fn mappers(script: &mut Script) {
    script.about("the module read on every mapper, fitted and resumed");
    for (mapper, sub) in [(16, 0), (16, 4), (16, 5), (153, 0), (157, 0), (159, 0)] {
        let desc = boards::plain(mapper, sub, 3);
        script.fit(&desc);
        script.line("module");
        script.clocks(1234);
        script.line("module");
        card(script);
        script.line("module");
        script.clocks(33_500);
        script.line("module");
        script.resume_state(&boards::state_of(&mut Rng::new(u64::from(mapper)), desc));
        script.line("module");
    }
}

/// Before any insertion, after a card that is not inserted, and after a second insertion; a refused card changes nothing.
fn insertions(script: &mut Script) {
    script.about("the module read around insertions");
    script.fit(&datach(4));
    script.clocks(5999);
    script.line("module");
    script.card(4_901_234_567_894, 13);
    script.line("module");
    for (number, digits) in [(4_901_234_567_894, 13), (96_385_074, 8), (96_385_074, 21), (0, 0)] {
        script.card(number, digits);
        script.line("module");
        script.insert();
        for clocks in [33_000, 2500, 54_499, 1, 42_000] {
            script.line("module");
            script.clocks(clocks);
        }
        script.line("module");
    }
}

/// No event: the events before it have run, as many as make a session and one more or less; none of it is counted.
fn between_events(script: &mut Script) {
    script.about("the module read between events");
    script.fit(&datach(4));
    card(script);
    script.clocks(32_900);
    for events in [1, 2, 63, 64, 65, 128] {
        for _ in 0..events {
            script.clocks(1);
        }
        script.line("module");
    }
    script.line("counts");
    for _ in 0..2 {
        script.line("module");
    }
    script.line("counts");
    script.card(1, 21);
    script.line("module");
    script.line("counts");
    script.end();
}

/// Right after a stop, after a resume, and where a resume or a fit is refused.
fn stops(script: &mut Script) {
    script.about("the module read after stops and resumes");
    script.fit(&datach(4));
    card(script);
    script.clocks(33_777);
    for _ in 0..2 {
        script.line("module");
        script.line("stop");
    }
    script.line("module");
    script.clocks(223);
    script.line("module");
    script.line("resume 00");
    script.line("module");
    resumed(script, 777_777, 1500, &[8, 0, 8]);
    script.line("stop");
    script.line("module");
    script.fit(&Desc { mapper: 18, ..datach(4) });
    script.line("module");
    script.line("stop");
    script.line("module");
    resumed(script, 777_777, 2999, &[8, 0, 8]);
    script.clocks(1);
    script.line("module");
}

/// The reader's clock at its limit and just below: inserted at clock 0, in between, within a card's time, and just now.
fn at_the_limit(script: &mut Script) {
    script.about("the module read at the clock's limit");
    let light = [8; 160];
    for elapsed in [CLOCK_LIMIT, CLOCK_LIMIT / 2, 160_000, 159_999, 0] {
        resumed(script, CLOCK_LIMIT, elapsed, if elapsed < 200_000 { &light } else { &light[..1] });
        script.clocks(1);
        script.line("module");
    }
    resumed(script, CLOCK_LIMIT - 905, CLOCK_LIMIT - 905, &light[..1]);
    for clocks in [1, 905, 904, 1] {
        script.clocks(clocks);
        script.line("module");
    }
    script.insert();
    script.line("module");
}

/// Numbers that a narrow type would take for 0, where the first module is light.
fn far(script: &mut Script) {
    script.about("the module read far from the insertion");
    for elapsed in [256_000, 65_536_000, 1 << 32, 1000 << 32] {
        for elapsed in [elapsed - 1, elapsed] {
            resumed(script, elapsed + 7, elapsed, &[8]);
        }
    }
}

/// Light cards of every length, at the last clock of the last module and at the next.
pub fn every_length(script: &mut Script) {
    for length in 0..=160 {
        let elapsed = (1000 * length as u64).saturating_sub(1);
        resumed(script, 1_000_000 + elapsed, elapsed, &[8; 160][..length]);
        script.clocks(1);
        script.line("module");
    }
}

/// Every clock of the last module before the bars and of the first bar.
pub fn every_clock(script: &mut Script) {
    script.fit(&datach(0));
    card(script);
    script.clocks(31_999);
    for _ in 0..2002 {
        script.line("module");
        script.clocks(1);
    }
    script.end();
}

/// Every power of two of elapsed clocks, at the clock's limit, and of modules, inserted at clock 0; a clock less too.
pub fn every_bit(script: &mut Script) {
    for elapsed in (0..=62).map(|bit| 1 << bit) {
        for elapsed in [elapsed - 1, elapsed] {
            resumed(script, CLOCK_LIMIT, elapsed, &[8]);
        }
    }
    for elapsed in (0..=52).map(|bit| 1000 << bit) {
        for elapsed in [elapsed - 1, elapsed] {
            resumed(script, elapsed, elapsed, &[8]);
        }
    }
}

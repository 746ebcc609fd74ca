//! Writes replay scripts to standard output. The same arguments write the same script, byte for byte.
//!
//!     scripts SEED EVENTS   random boards until EVENTS event lines are written
//!     scripts fixed         the fixed list: directed corners, compact exhaustive parts, random boards
//!     scripts exhaustive    every chip transition and every register address of every window; large
mod boards;
mod chips;
mod corners;
mod damage;
mod datasheet;
mod decode;
mod differences;
mod exhaustive;
mod fitting;
mod gs1;
mod master;
mod module_read;
mod random;
mod registers;
mod rng;
mod rules;
mod two_buffers;
mod writer;

use std::{
    io::{self, Write},
    process,
};
use writer::Script;

fn main() -> io::Result<()> {
    let arguments: Vec<String> = std::env::args().skip(1).collect();
    let words: Vec<&str> = arguments.iter().map(String::as_str).collect();
    let mut script = Script::default();
    match words[..] {
        ["fixed"] => fixed(&mut script),
        ["exhaustive"] => exhaustive::all(&mut script),
        [seed, events] => match (seed.parse(), events.parse()) {
            (Ok(seed), Ok(events)) => random::boards(&mut script, seed, events, false),
            _ => usage(),
        },
        _ => usage(),
    }
    io::stdout().lock().write_all(script.text.as_bytes())
}

fn usage() -> ! {
    eprintln!("usage: scripts SEED EVENTS | scripts fixed | scripts exhaustive");
    process::exit(2);
}

/// Some 221,500 events, with what they must give small enough to be kept in a repository.
fn fixed(script: &mut Script) {
    corners::all(script);
    differences::all(script);
    module_read::all(script);
    two_buffers::all(script);
    decode::all(script);
    rules::all(script);
    datasheet::all(script);
    registers::every_address_class(script);
    registers::high_bank(script);
    registers::counters(script);
    script.about("every mapper with submappers 0 to 6 and every access");
    exhaustive::accesses(script, 6);
    damage::every_field(script);
    chips::transitions(script);
    chips::transitions_by_datasheet(script);
    random::boards(script, 157, 221_500, true);
}

//! The same work on the proved board and on the published Rust, in one program, both built for release.
mod cards;
mod inputs;
mod items;
mod timing;
mod views;

use std::{env, process::exit};
use timing::{ROUNDS, Row};

/// How often the whole list is run: some seconds lie between two passes of an item.
const PASSES: u32 = 4;

/// What is timed, by the word that asks for it; all of it where none is asked for.
const PARTS: [(&str, fn(&mut Vec<Row>)); 9] = [
    ("clocks", items::clocks),
    ("reads", items::reads),
    ("registers", items::registers),
    ("lines", items::lines),
    ("cards", items::cards),
    ("decodes", cards::decodes),
    ("sessions", items::sessions),
    ("files", items::files),
    ("views", views::views),
];

fn main() {
    if !tetanes_core::PUBLISHED {
        eprintln!("bench compares with the published Rust: {}", tetanes_core::HOW_TO_HAVE_THEM);
        exit(2);
    }
    let wanted: Vec<String> = env::args().skip(1).collect();
    let parts: Vec<_> =
        PARTS.into_iter().filter(|(name, _)| wanted.is_empty() || wanted.iter().any(|word| word == name)).collect();
    let mut rows: Vec<Row> = Vec::new();
    for pass in 0..PASSES {
        let mut again = Vec::new();
        parts.iter().for_each(|(_, part)| part(&mut again));
        if pass == 0 {
            rows = again;
        } else {
            rows.iter_mut().zip(&again).for_each(|(row, other)| row.better(other));
        }
    }
    println!("Best of {PASSES} passes of {ROUNDS} or more rounds, both sides in turn. Ratio: ours to the Rust's.");
    println!("Mixed events: {}.", inputs::MIX);
    Row::head();
    rows.iter().for_each(Row::print);
    let met = rows.iter().filter(|row| row.met() == Some(true)).count();
    let bars = rows.iter().filter(|row| row.met().is_some()).count();
    println!("{met} of {bars} bars met");
    for row in rows.iter().filter(|row| row.name.starts_with("mixed session")) {
        let rust = row.rust.map_or(f64::NAN, |ns| 1e3 / ns);
        println!("{}: {:.1} million events/s, the Rust {rust:.1}", row.name, 1e3 / row.ours);
    }
}

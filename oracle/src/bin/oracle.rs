//! Reads a replay script from standard input and writes what must come of it. See ../../README.md.
use std::{
    io::{self, BufWriter, Read, Write},
    panic, process,
    sync::atomic::{AtomicUsize, Ordering::Relaxed},
};
use tetanes_core::{HOW_TO_HAVE_THEM, PUBLISHED, replay::Replay};

/// The line that is being run, for a panic of the published code.
static LINE: AtomicUsize = AtomicUsize::new(0);

fn main() -> io::Result<()> {
    if !PUBLISHED {
        eprintln!("oracle: {HOW_TO_HAVE_THEM}");
        process::exit(2);
    }
    panic::set_hook(Box::new(|panic| eprintln!("oracle: line {}: {panic}", LINE.load(Relaxed))));
    let mut script = Vec::new();
    io::stdin().lock().read_to_end(&mut script)?;
    let script = script.strip_suffix(b"\n").unwrap_or(&script);
    let mut out = BufWriter::with_capacity(1 << 20, io::stdout().lock());
    let mut replay = Replay::default();
    for (i, line) in script.split(|byte| *byte == b'\n').enumerate() {
        LINE.store(i + 1, Relaxed);
        replay.line(i + 1, line, &mut out)?;
    }
    out.flush()
}

//! Random sessions on the board and on the published Rust, more than a million events: every answer byte, every field, both tables.
//! An X24C02 under rule 1, which the published Rust has not, is the oracle's own.
mod common;

use common::{Rng, cart, desc, event, file, published, rust_event, state};
use molbitak::{Board, Event, ModuleRead, Refusal, raw};
use tetanes_core::{host, state_file::encode};

/// Both boards, fresh or in a valid state at random.
fn boards(r: &mut Rng) -> (Board, host::Board) {
    let cart = cart(r);
    if r.below(2) == 0 {
        (Board::load(&cart).unwrap(), desc(&cart).fit().unwrap_or_else(|n| panic!("refused with {n}")))
    } else {
        let state = state(r, &cart);
        (Board::resume(&encode(&state)).unwrap(), host::Board::of(&state))
    }
}

fn same(ours: &Board, rust: &host::Board) {
    assert_eq!(file(ours), rust.file());
    let (prg, chr) = rust.entries();
    let tables = ours.page_tables();
    assert!(tables.prg.iter().map(|page| page.entry()).eq(prg), "PRG pages of {:?}", ours.cart());
    assert!(tables.chr.iter().map(|page| page.entry()).eq(chr), "CHR pages of {:?}", ours.cart());
}

#[test]
fn sessions() {
    if !published() {
        return;
    }
    let mut r = Rng(2026);
    let (mut records, mut refused) = (0, 0);
    while records < 1_050_000 {
        let (mut ours, mut rust) = boards(&mut r);
        let events: Vec<Event> = (0..r.below(500)).map(|_| event(&mut r)).collect();
        let wanted: Vec<u8> = events.iter().flat_map(|e| rust.event(&rust_event(e))).collect();
        let mut answers = vec![0; wanted.len()];
        let end = ours.session(&events, &mut answers).unwrap();
        assert_eq!(answers, wanted);
        assert_eq!((end.records, end.refused), (events.len(), wanted.chunks(3).filter(|a| a[0] != 0).count()));
        same(&ours, &rust);
        records += end.records;
        refused += end.refused;
    }
    println!("{records} events, {refused} of them refused, all as the published Rust");
}

/// An event by the board's own calls.
fn single(board: &mut Board, e: &Event) -> [u8; 3] {
    let mut read = None;
    let pending = board.irq_pending();
    let done = match e.kind {
        Event::WRITE => {
            board.write_register(e.address, e.value);
            Ok(())
        }
        Event::READ => {
            read = board.prg_peek(e.address);
            Ok(())
        }
        Event::CLOCKS if e.count == 1 => board.clock(),
        Event::CLOCKS => board.clocks(e.count),
        Event::CARD => board.input(e.number, e.count),
        Event::INSERT => board.init(),
        Event::LINES => board.lines(e.chip, e.scl, e.sda),
        _ => Err(Refusal::KindUnknown),
    };
    assert!(done.is_ok() || board.irq_pending() == pending);
    let refusal = done.map_or_else(Refusal::number, |()| 0);
    [refusal, u8::from(read.is_some()) + 2 * u8::from(board.irq_pending()), read.unwrap_or(0)]
}

#[test]
fn single_calls_event_by_event() {
    if !published() {
        return;
    }
    let mut r = Rng(99);
    for _ in 0..400 {
        let (mut ours, mut rust) = boards(&mut r);
        for _ in 0..250 {
            let e = event(&mut r);
            let wanted = rust.event(&rust_event(&e));
            let mut checked = *ours.state();
            assert_eq!(raw::molbitak_event(&mut checked, e).bytes(), wanted, "{e:?}");
            assert_eq!(single(&mut ours, &e), wanted, "{e:?}");
            assert_eq!(ours.state(), &checked, "{e:?}");
            assert!(raw::molbitak_is_valid(checked));
            assert_eq!(ours.mirroring() as u8, rust.b.mirroring as u8);
            let ModuleRead { number, spent, light } = ours.module_read();
            assert_eq!((number, spent, light), rust.module_read(), "{e:?}");
            same(&ours, &rust);
        }
    }
}

/// Module reads on boards with and without a reader, at clocks anywhere up to 2^62 and inserted anywhere before, while cards come and run.
#[test]
fn module_reads() {
    if !published() {
        return;
    }
    let mut r = Rng(1000);
    let (mut reads, mut past, mut light) = (0, 0, 0);
    for _ in 0..3000 {
        let cart = cart(&mut r);
        let mut state = state(&mut r, &cart);
        if let Some(reader) = &mut state.reader {
            reader.clock = (1 << 62) >> r.below(63);
            reader.clock -= r.below(reader.clock.min(3000));
            let since = if r.below(2) == 0 { r.below(165_000) } else { r.below(reader.clock + 1) };
            reader.insert_clock = reader.clock.saturating_sub(since);
        }
        let (mut ours, mut rust) = (Board::resume(&encode(&state)).unwrap(), host::Board::of(&state));
        for _ in 0..20 {
            let wanted = rust.module_read();
            let ModuleRead { number, spent, light: shown } = ours.module_read();
            assert_eq!((number, spent, shown), wanted, "{:?}", ours.barcode_reader());
            (reads, past, light) = (reads + 1, past + u32::from(number > 160), light + u32::from(shown == 8));
            let e = match r.below(10) {
                0 => Event::card(r.below(10_000_000_000_000), r.of(&[0, 8, 13, 21])),
                1 => Event::insert(),
                _ => Event::clocks(r.of(&[1, 999, 1000, 1001, 9876, 40_000])),
            };
            assert_eq!(single(&mut ours, &e), rust.event(&rust_event(&e)), "{e:?}");
        }
        same(&ours, &rust);
    }
    assert!(light > 5000 && past > 5000 && reads - light - past > 5000, "{reads} reads, {past} past the end, {light} light");
}

/// A session and its events one by one: the same board, counts and bytes; and a buffer too short for it is left.
#[test]
fn sessions_and_events() {
    let mut r = Rng(17);
    for _ in 0..3000 {
        let state = *common::board(&mut r).state();
        let events: Vec<Event> = (0..r.below(40)).map(|_| event(&mut r)).collect();
        let room = (3 * events.len() + r.below(5) as usize).saturating_sub(2);
        let mut answers = vec![0xEE; room];
        let words = events.as_ptr().cast();
        // SAFETY: pointers and lengths of the list and of the buffer; an event is three words with no byte unwritten.
        let end = unsafe { raw::molbitak_session(state, words, 3 * events.len(), answers.as_mut_ptr(), room) };
        let (mut board, mut wanted, mut refused) = (state, vec![0xEE; room], 0);
        if room < 3 * events.len() {
            assert_eq!((end.refusal, end.records, end.refused), (10, 0, 0));
        } else {
            for (e, answer) in events.iter().zip(wanted.chunks_exact_mut(3)) {
                let bytes = raw::molbitak_event(&mut board, *e).bytes();
                answer.copy_from_slice(&bytes);
                refused += usize::from(bytes[0] != 0);
            }
            assert_eq!((end.refusal, end.records, end.refused), (0, events.len(), refused));
        }
        assert_eq!(end.board, board);
        assert_eq!(answers, wanted);
    }
}

/// Every address, on boards of every mapper and access: the library's checked event reads the same.
#[test]
fn reads_at_every_address() {
    let mut r = Rng(31);
    for _ in 0..60 {
        let board = common::board(&mut r);
        let mut state = *board.state();
        for addr in 0..=u16::MAX {
            let read = raw::molbitak_event(&mut state, Event::read(addr));
            assert_eq!((read.refusal(), read.read()), (None, board.prg_peek(addr)), "{addr:#06x}");
        }
        assert_eq!(&state, board.state());
    }
}

/// Counts far above what the Rust can take singly: they are the same as several smaller ones.
#[test]
fn large_counts() {
    let mut r = Rng(5);
    for _ in 0..2000 {
        let mut one = common::board(&mut r);
        let mut two = one.clone();
        let (a, b) = (r.below(1 << 31) as u32, r.below(1 << 31) as u32);
        let whole = one.clocks(a + b);
        if whole.is_ok() {
            two.clocks(a).unwrap();
            two.clocks(b).unwrap();
        }
        assert_eq!(one, two);
    }
}

//! What is timed. Both sides get the same inputs; at the end of an item their states are compared.
//!
//! The published Rust is called by its own methods: `BandaiFCG::clock`, `prg_peek`, `write_register`, `update_banks`,
//! `BarcodeReader::input`, `init` and `read`, `Eeprom::write`. It updates its page tables in every register write.
use crate::{
    inputs::{carts, datach, fit, mixed, random_lines, rust_event, same, transactions, transactions_by_datasheet, writes},
    timing::{Row, alone, both},
};
use molbitak::{Board, Cart, EepromRule, Event, STATE_FILE_MAX};
use std::hint::black_box;
use tetanes_core::mapper::Map;

const N: u64 = 100_000;

/// Does the work `n` times, each result kept from the optimiser.
fn repeat<T>(n: u64, mut work: impl FnMut() -> T) {
    for _ in 0..n {
        black_box(work());
    }
}

/// Clocks: single calls, and counted ones.
pub fn clocks(rows: &mut Vec<Row>) {
    for (name, cart) in [("157", datach()), ("159", carts()[0].1)] {
        let (mut ours, mut rust) = fit(&cart);
        for (addr, val) in [(0x800B, 0x34), (0x800C, 0x12), (0x800A, 1)] {
            ours.write_register(addr, val);
            rust.b.write_register(&mut rust.mem, addr, val);
        }
        rows.push(both(
            &format!("clock, single calls, counting, {name}"),
            Some(1.5),
            N,
            || repeat(N, || black_box(&mut ours).clock()),
            || repeat(N, || black_box(&mut rust.b).clock()),
        ));
        rows.push(both(
            &format!("clocks of count 1, counting, {name}; Rust: one clock"),
            Some(1.5),
            N,
            || repeat(N, || black_box(&mut ours).clocks(1)),
            || repeat(N, || black_box(&mut rust.b).clock()),
        ));
        rows.push(both(
            &format!("clocks of count 100, {name}; Rust: 100 clocks"),
            Some(1.5),
            N / 100,
            || repeat(N / 100, || black_box(&mut ours).clocks(100)),
            || repeat(N, || black_box(&mut rust.b).clock()),
        ));
        same("clocks", &ours, &rust);
        rows.push(alone(&format!("clocks of count 2^32 - 1, {name} (to be that of count 1)"), N, || {
            repeat(N, || black_box(&mut ours).clocks(u32::MAX))
        }));
    }
}

/// Device reads while a card runs, and the module read.
pub fn reads(rows: &mut Vec<Row>) {
    let (mut ours, mut rust) = fit(&datach());
    ours.input(4_901_234_567_894, 13).unwrap();
    ours.init().unwrap();
    ours.clocks(40_500).unwrap();
    let reader = rust.b.barcode_reader.as_mut().unwrap();
    reader.input(4_901_234_567_894, 13);
    reader.init();
    (0..40_500).for_each(|_| rust.b.clock());
    for (what, addr) in [("0x6000, a card running", 0x6000), ("0x8000, no device", 0x8000)] {
        assert_eq!(ours.prg_peek(addr), rust.b.prg_peek(addr));
        rows.push(both(
            &format!("device read, 157, {what}"),
            Some(1.5),
            N,
            || repeat(N, || black_box(&ours).prg_peek(black_box(addr))),
            || repeat(N, || black_box(&rust.b).prg_peek(black_box(addr))),
        ));
    }
    assert_eq!(ours.module_read().light, rust.b.barcode_reader.as_ref().unwrap().read());
    // The light is all that the published reader gives, and rustc inlines it: so no bar is set.
    rows.push(both(
        "module read, 157, a card running; Rust: the light alone",
        None,
        N,
        || repeat(N, || black_box(&ours).module_read()),
        || repeat(N, || black_box(&rust.b).barcode_reader.as_ref().unwrap().read()),
    ));
    same("reads", &ours, &rust);
}

/// Register writes, with the page tables after each and without; page tables alone.
pub fn registers(rows: &mut Vec<Row>) {
    const M: u64 = 2_000;
    let writes = writes(M as usize);
    for (name, cart) in carts() {
        let (mut ours, mut rust) = fit(&cart);
        rows.push(both(
            &format!("register write and page tables, {name}"),
            Some(1.0),
            M,
            || {
                for &(addr, val) in &writes {
                    black_box(&mut ours).write_register(addr, val);
                    black_box(black_box(&ours).page_tables());
                }
            },
            || {
                for &(addr, val) in &writes {
                    black_box(&mut rust.b).write_register(black_box(&mut rust.mem), addr, val);
                }
            },
        ));
        same(name, &ours, &rust);
        rows.push(both(
            &format!("page tables alone, {name}; Rust: update_banks"),
            None,
            M,
            || repeat(M, || black_box(&ours).page_tables()),
            || repeat(M, || black_box(&mut rust.b).update_banks(black_box(&mut rust.mem))),
        ));
        rows.push(alone(&format!("register write without page tables, {name}"), M, || {
            for &(addr, val) in &writes {
                black_box(&mut ours).write_register(addr, val);
            }
        }));
    }
}

/// Line changes of both models, and of an X24C02 under rule 1.
pub fn lines(rows: &mut Vec<Row>) {
    let x24c01 = carts()[0].1;
    for (model, cart, x24c02) in [("X24C02", datach(), true), ("X24C01", x24c01, false)] {
        for (what, list) in [("random", random_lines(20_000)), ("whole transactions", transactions(x24c02))] {
            let (mut ours, mut rust) = fit(&cart);
            rows.push(both(
                &format!("line change, {model}, {what}"),
                Some(2.0),
                list.len() as u64,
                || {
                    for &(scl, sda) in &list {
                        black_box(black_box(&mut ours).lines(0, scl, sda)).unwrap();
                    }
                },
                || {
                    for &(scl, sda) in &list {
                        black_box(&mut rust.b).standard_eeprom.as_mut().unwrap().write(scl, sda);
                    }
                },
            ));
            same(model, &ours, &rust);
            if what == "whole transactions" {
                assert!(written(&ours), "the transactions write each byte");
            }
        }
    }
    lines_by_datasheet(rows);
}

/// Whether every byte of the transactions is in its cell.
fn written(board: &Board) -> bool {
    (0..128u8).all(|a| board.standard_eeprom().unwrap().1[usize::from(a)] == a ^ 0x5A)
}

/// Line changes of an X24C02 under rule 1, which the published Rust has not.
fn lines_by_datasheet(rows: &mut Vec<Row>) {
    let cart = Cart { eeprom_rule: EepromRule::Datasheet as u8, ..datach() };
    for (what, list) in [("random", random_lines(20_000)), ("whole transactions", transactions_by_datasheet())] {
        let mut ours = Board::load(&cart).unwrap();
        rows.push(alone(&format!("line change, X24C02 under rule 1, {what}"), list.len() as u64, || {
            for &(scl, sda) in &list {
                black_box(black_box(&mut ours).lines(0, scl, sda)).unwrap();
            }
        }));
        assert!(what == "random" || written(&ours), "the transactions write each byte under rule 1");
    }
}

/// Cards of 13, 8 and 0 digits, put in and inserted.
pub fn cards(rows: &mut Vec<Row>) {
    const M: u64 = 1_000;
    let (mut ours, mut rust) = fit(&datach());
    for (number, digits) in [(4_901_234_567_890u64, 13u32), (49_012_340, 8), (0, 0)] {
        rows.push(both(
            &format!("card and insertion, {digits} digits"),
            Some(1.0),
            M,
            || {
                for i in 0..M {
                    black_box(&mut ours).input(number + (i & 7), digits).unwrap();
                    black_box(&mut ours).init().unwrap();
                }
            },
            || {
                for i in 0..M {
                    let reader = black_box(&mut rust.b).barcode_reader.as_mut().unwrap();
                    reader.input(number + (i & 7), digits);
                    reader.init();
                }
            },
        ));
        same("cards", &ours, &rust);
    }
}

/// Mixed events: as sessions, and by single calls with page tables after each register write.
pub fn sessions(rows: &mut Vec<Row>) {
    for (what, count) in [("clocks of 1 to 100", 100), ("clocks of 1", 1)] {
        let events = mixed(10_000, count);
        let rust_events: Vec<_> = events.iter().map(rust_event).collect();
        let n = events.len() as u64;
        let (mut ours, mut rust) = fit(&datach());
        let (mut answers, mut rust_answers) = (vec![0u8; events.len() * 3], vec![0u8; events.len() * 3]);
        rows.push(both(
            &format!("mixed session, an event, {what}"),
            Some(1.0),
            n,
            || repeat(1, || ours.session(black_box(&events), black_box(&mut answers))),
            || {
                for (e, answer) in black_box(&rust_events).iter().zip(black_box(&mut rust_answers).chunks_exact_mut(3)) {
                    answer.copy_from_slice(&rust.event(e));
                }
            },
        ));
        same("sessions", &ours, &rust);
        assert!(answers == rust_answers, "the answers differ");
        let (mut ours, mut rust) = fit(&datach());
        rows.push(both(
            &format!("mixed events by single calls, tables after a write, {what}"),
            Some(1.0),
            n,
            || {
                for (e, answer) in black_box(&events).iter().zip(black_box(&mut answers).chunks_exact_mut(3)) {
                    answer.copy_from_slice(&single(&mut ours, e));
                }
            },
            || {
                for (e, answer) in black_box(&rust_events).iter().zip(black_box(&mut rust_answers).chunks_exact_mut(3)) {
                    answer.copy_from_slice(&rust.event(e));
                }
            },
        ));
        same("single calls", &ours, &rust);
        assert!(answers == rust_answers, "the answers differ");
    }
}

/// An event by the board's own calls, as a program that holds no list makes them.
fn single(board: &mut Board, e: &Event) -> [u8; 3] {
    let mut read = None;
    let done = match e.kind {
        Event::WRITE => {
            board.write_register(e.address, e.value);
            black_box(board.page_tables());
            Ok(())
        }
        Event::READ => {
            read = board.prg_peek(e.address);
            Ok(())
        }
        Event::CLOCKS => board.clocks(e.count),
        Event::CARD => board.input(e.number, e.count),
        Event::INSERT => board.init(),
        _ => board.lines(e.chip, e.scl, e.sda),
    };
    let flags = u8::from(read.is_some()) + 2 * u8::from(board.irq_pending());
    [done.map_or_else(|refusal| refusal.number(), |()| 0), flags, read.unwrap_or(0)]
}

/// State files: written and read. The published Rust has none.
pub fn files(rows: &mut Vec<Row>) {
    const M: u64 = 1_000;
    for (name, cart) in [("157 with a card", datach()), ("153", carts()[2].1)] {
        let (mut ours, _) = fit(&cart);
        let _ = ours.input(4_901_234_567_894, 13).and_then(|()| ours.init());
        let mut file = [0; STATE_FILE_MAX];
        let length = ours.save_into(&mut file).unwrap();
        rows.push(alone(&format!("state file written, {length} bytes, {name}"), M, || {
            repeat(M, || black_box(&ours).save_into(black_box(&mut file)))
        }));
        rows.push(alone(&format!("state file read, {length} bytes, {name}"), M, || {
            repeat(M, || Board::resume(black_box(&file[..length])))
        }));
    }
}

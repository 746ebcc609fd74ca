//! The proved board in place of the crate's `BandaiFCG` (drop_in/bandai.rs), run beside the published Rust on random sessions. Every
//! answer, every page entry and every byte of memory is compared, and so is every byte that is seen and stored through two buffers, a
//! read-only one and one that can be written; on a difference the program ends with status 1.
//!
//!     TETANES_CORE_SRC=FOLDER cargo run --offline --release --example drop_in
//!
//! FOLDER holds the published src/mapper/bandai_fcg.rs and src/memory.rs.
#[path = "drop_in/bandai.rs"]
mod bandai;
#[path = "../tests/common/mod.rs"]
mod common;

use bandai::{Bandai, TwoBuffers};
use common::Rng;
use molbitak::Access;
use std::process::exit;
use tetanes_core::{
    cart::Cart,
    host::{mir, pat},
    mapper::{BandaiFCG, Map, Mapper, bandai_fcg::MemoryOp},
    memory::{Memory, MemoryLayout, Src},
};

/// What was compared.
#[derive(Default)]
struct Agreed {
    sessions: u64,
    calls: u64,
    entries: u64,
    bytes: u64,
}

/// Ends the program where the two answers differ.
fn same<T: PartialEq + std::fmt::Debug>(what: &str, ours: T, rust: T) {
    if ours != rust {
        eprintln!("DIFFERENT: {what}: ours {ours:?}, the published Rust {rust:?}");
        exit(1);
    }
}

const REGIONS: [Src; 6] = [Src::PrgRom, Src::PrgRam, Src::BatteryExt, Src::Chr, Src::CiRam, Src::ExRam];

/// A cart of the crate, with something of its own in each byte of memory.
fn crate_cart(c: &molbitak::Cart) -> Cart {
    let mut layout = MemoryLayout::default();
    layout.prg_rom = c.prg_rom_size as usize;
    layout.prg_ram = c.prg_ram_size as usize;
    layout.battery_ext = 1024;
    layout.chr_writable = c.chr_rom_size == 0;
    layout.chr = if layout.chr_writable { c.chr_ram_size } else { c.chr_rom_size } as usize;
    layout.ciram = c.ciram_size as usize;
    layout.ex_ram = c.ex_ram_size as usize;
    let mut memory = Memory::new(layout);
    for (number, src) in REGIONS.into_iter().enumerate() {
        for (at, byte) in memory.region_mut(src).iter_mut().enumerate() {
            *byte = pat(4096 + at * 7 + number * 1000);
        }
    }
    Cart {
        memory,
        chr_rom_size: c.chr_rom_size as usize,
        chr_ram_size: c.chr_ram_size as usize,
        prg_rom_size: c.prg_rom_size as usize,
        prg_ram_size: c.prg_ram_size as usize,
        mirroring: mir(c.mirroring),
        mapper_num: c.mapper_num,
        submapper_num: c.submapper_num,
        nes2: c.nes2 == 1,
    }
}

fn session(r: &mut Rng, agreed: &mut Agreed) {
    let cart = common::cart(r);
    let access = r.of(&[Access::None, Access::Read, Access::Write, Access::ReadWrite, Access::ReadWrite, Access::AsLoaded]);
    let (mut our_cart, mut rust_cart) = (crate_cart(&cart), crate_cart(&cart));
    let mut ours = Bandai::load(&mut our_cart, access).expect("a listed cart");
    let Ok(Mapper::BandaiFCG(mut rust)) = BandaiFCG::load(&mut rust_cart) else { panic!("the published load gives a board") };
    match access {
        Access::None => rust.sram_access = MemoryOp::None,
        Access::Read => rust.sram_access = MemoryOp::Read,
        Access::Write => rust.sram_access = MemoryOp::Write,
        Access::ReadWrite => rust.sram_access = MemoryOp::ReadWrite,
        Access::AsLoaded => (),
    }
    let (our_memory, rust_memory) = (&mut our_cart.memory, &mut rust_cart.memory);
    let mut buffers = TwoBuffers::of(&ours, our_memory);
    let calls = r.below(400);
    for _ in 0..calls {
        let e = common::event(r);
        match e.kind {
            0 | 5 => {
                let addr = if e.kind == 5 { 0x800D } else { e.address };
                ours.write_register(our_memory, addr, e.value);
                rust.write_register(rust_memory, addr, e.value);
                // a byte stored by the CPU, and one by the PPU
                let (addr, val) = (r.below(65_536) as u16, r.byte());
                our_memory.prg_write(addr, val);
                rust_memory.prg_write(addr, val);
                buffers.prg_write(&ours.board, addr, val);
                our_memory.chr_write(!addr, val);
                rust_memory.chr_write(!addr, val);
                buffers.chr_write(&ours.board, !addr, val);
            }
            1 => same("prg_peek", ours.prg_peek(e.address), rust.prg_peek(e.address)),
            2 => {
                (0..e.count).for_each(|_| ours.clock());
                (0..e.count).for_each(|_| rust.clock());
            }
            3 | 4 => {
                if let Some(reader) = rust.barcode_reader.as_mut() {
                    reader.input(e.number, e.count % 21);
                    reader.init();
                    ours.board.input(e.number, e.count % 21).and_then(|()| ours.board.init()).expect("a reader is fitted");
                }
            }
            _ => ours.update_banks(our_memory),
        }
        same("irq_pending", ours.irq_pending(), rust.irq_pending());
        same("mirroring", ours.mirroring(), rust.mirroring());
        same("PRG pages", our_memory.prg_pages(), rust_memory.prg_pages());
        same("CHR pages", our_memory.chr_pages(), rust_memory.chr_pages());
        let addr = r.below(65_536) as u16;
        same("a byte of the CPU's", our_memory.prg_peek(addr), rust_memory.prg_peek(addr));
        same("a byte of the PPU's", our_memory.chr_peek(addr), rust_memory.chr_peek(addr));
        same("a byte of the CPU's, of two buffers", buffers.prg_peek(&ours.board, addr), rust_memory.prg_peek(addr));
        same("a byte of the PPU's, of two buffers", buffers.chr_peek(&ours.board, addr), rust_memory.chr_peek(addr));
        agreed.entries += 80;
    }
    same("every byte of two buffers", &buffers, &TwoBuffers::of(&ours, rust_memory));
    ours.sync_battery(our_memory);
    rust.sync_battery(rust_memory);
    same("the battery", our_memory.sram(), rust_memory.sram());
    // another battery comes back, and is what the chips then hold
    let byte = r.byte();
    our_memory.sram_mut().iter_mut().chain(rust_memory.sram_mut()).for_each(|b| *b ^= byte);
    ours.restore_battery(our_memory);
    rust.restore_battery(rust_memory);
    our_memory.region_mut(Src::BatteryExt).fill(0);
    rust_memory.region_mut(Src::BatteryExt).fill(0);
    ours.sync_battery(our_memory);
    rust.sync_battery(rust_memory);
    for src in REGIONS {
        same("memory", our_memory.region_ref(src), rust_memory.region_ref(src));
        agreed.bytes += our_memory.region_ref(src).len() as u64;
    }
    agreed.sessions += 1;
    agreed.calls += calls;
}

fn main() {
    if !tetanes_core::PUBLISHED {
        eprintln!("nothing to compare with: {}", tetanes_core::HOW_TO_HAVE_THEM);
        exit(2);
    }
    let mut r = Rng(20_260_000_157);
    let mut agreed = Agreed::default();
    (0..2000).for_each(|_| session(&mut r, &mut agreed));
    let Agreed { sessions, calls, entries, bytes } = agreed;
    println!("agreed with the published Rust: {sessions} boards, {calls} calls, {entries} page entries, {bytes} bytes of memory");
}

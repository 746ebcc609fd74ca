//! The large script: every transition of both chips under both rules, each compared whole; every register address on every mapper; every
//! window over regions of every small length; module reads at every end of a card, at every clock of a module, and far from
//! an insertion.
use crate::{boards::plain, chips, module_read, writer::Script};
use tetanes_core::{host::Desc, state::Chip};

pub fn all(script: &mut Script) {
    transitions(script);
    addresses(script);
    accesses(script, 255);
    windows(script);
    module_read::every_length(script);
    module_read::every_clock(script);
    module_read::every_bit(script);
}

/// Every mode, next mode, counter, output, levels before and levels after, of both models under both rules: 48,960 line
/// changes.
fn transitions(script: &mut Script) {
    for (rule, model) in [(0, 1), (0, 2), (1, 1), (1, 2)] {
        chips::every_chip(model, |chip| {
            for levels in 0..16 {
                let level = |i: u8| levels >> i & 1;
                script.resume_state(&chips::board_with(Chip { scl: level(0), sda: level(1), ..chip.clone() }, rule));
                script.lines(0, level(2), level(3));
                script.line("file");
            }
        });
    }
}

/// A write to every address from 0x5F00 on, and a read there, on each mapper; the state now and then.
fn addresses(script: &mut Script) {
    for (mapper, sub) in [(16, 0), (16, 4), (16, 5), (153, 0), (157, 0), (159, 0)] {
        script.fit(&plain(mapper, sub, 3));
        for addr in 0x5F00..=0xFFFF_u16 {
            // RAM on 153 is enabled for a while only, so that registers below 0x8000 are met both ways
            let value = (addr >> 4) as u8 ^ (addr as u8).wrapping_mul(29);
            script
                .write(addr, if addr & 15 == 13 { value & if addr & 0x400 == 0 { 0x60 } else { 0x40 } } else { value });
            if addr % 16 == 15 {
                script.read(addr ^ 0xE000);
                script.clocks(u32::from(addr >> 4 & 7));
            }
            if addr % 1024 == 1023 {
                script.line("file");
                script.line("pages");
            }
        }
        script.end();
    }
}

/// Every mapper, submapper up to `last` and access, NES 2.0 and PRG RAM: what is fitted, who answers, and the module read.
pub fn accesses(script: &mut Script, last: u8) {
    for mapper in [16, 153, 157, 159] {
        for sub in 0..=last {
            for (access, nes2, prg_ram) in [(4, 0, 256), (4, 1, 128), (3, 1, 256), (0, 0, 255), (1, 1, 0), (2, 0, 128)]
            {
                let mut desc = plain(mapper, sub, access);
                desc.nes2 = nes2;
                desc.sizes[3] = prg_ram;
                script.fit(&desc);
                for (register, value) in [(11, 0x34), (12, 0x12), (10, 1), (13, 0x60), (3, 8)] {
                    script.write(0x8000 | register, value);
                }
                script.read(0x6000);
                script.lines(0, 1, 0);
                script.lines(1, 1, 0);
                script.read(0x7FFF);
                script.clocks(1);
                script.line("module");
                script.line("stop");
                script.line("file");
            }
        }
    }
}

/// Page tables: PRG ROM and RAM of every length up to 70 pages and some beyond, with every PRG page and high bank; CHR
/// of every length up to 40 pages, with every bank; CIRAM up to 6 pages, with every mirroring.
fn windows(script: &mut Script) {
    let lengths = (0..=70).chain([127, 255, 256, 257, 511, 512, 513, 1023, 1024, 1025, 16_384]);
    for pages in lengths {
        let size = (1024 * pages - u32::from(pages % 3 == 1)).min(16_777_216);
        let sizes = [size, 0, size, size / 2, 0, 0, 0];
        script.fit(&Desc { mapper: 153, sub: 0, nes2: 1, mir: 1, access: 4, sizes, rule: 0 });
        script.write(0x800D, 0x20);
        for bank in 0..32 {
            script.write(0x8000 | bank & 7, (bank >> 4) as u8);
            script.write(0x8008, bank as u8);
            script.line("pages");
            script.write(0x8000 | bank & 7, 0);
        }
    }
    for pages in (1..=40).chain([128, 255, 256, 257, 300]) {
        let sizes = [16_384, 1024 * pages - u32::from(pages % 3 == 1), 0, 0, 0, 0, 0];
        script.fit(&Desc { mapper: 159, sub: 0, nes2: 1, mir: 1, access: 4, sizes, rule: 0 });
        for bank in 0..=255 {
            script.write(0x8000 | u16::from(bank & 7), bank);
            if bank % 8 == 7 {
                script.line("pages");
            }
        }
    }
    for ciram in [0, 1, 1023, 1024, 1025, 2048, 3072, 3073, 4096, 5120, 6144] {
        for mir in 0..=4 {
            let sizes = [5000, 1, 0, 0, 0, ciram, 1];
            script.fit(&Desc { mapper: 16, sub: 5, nes2: 1, mir, access: 4, sizes, rule: 0 });
            script.line("pages");
            script.write(0x8009, 0xFC | mir);
            script.line("pages");
        }
    }
}

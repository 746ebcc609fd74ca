//! Registers: every address class on every mapper and access, the high bank, counters.
use crate::{boards::plain, writer::Script};
use tetanes_core::host::Desc;

/// The mappers with the submappers that matter, and some that do not.
const MAPPERS: [(u16, u8); 10] =
    [(16, 0), (16, 1), (16, 3), (16, 4), (16, 5), (16, 6), (153, 0), (157, 0), (157, 4), (159, 0)];

/// The edges of the windows.
const WINDOWS: [u16; 6] = [0x5FF0, 0x6000, 0x7FF0, 0x8000, 0xBFF0, 0xFFF0];

/// On every mapper and access all sixteen registers at the edges of the windows, a device read after each.
pub fn every_address_class(script: &mut Script) {
    script.about("every register at the edges of the windows, on every mapper and access");
    for (mapper, sub) in MAPPERS {
        for access in 0..=4 {
            let mut desc = plain(mapper, sub, access);
            if mapper == 153 {
                (desc.sizes[1], desc.sizes[3]) = (0, 8192);
            }
            script.fit(&desc);
            for (i, window) in WINDOWS.into_iter().enumerate() {
                for register in 0..16 {
                    // on 153 register 13 enables RAM in one window, and disables it in the next
                    let value = if register == 13 {
                        [0x20, 0x60, 0x40, 0, 0x60, 0x20][i]
                    } else {
                        (37 * register + 11 * i as u16 + 9) as u8
                    };
                    script.write(window | register, value);
                    if register % 4 == 1 {
                        script.read(window | register);
                    }
                }
                script.clocks(2);
                if i == 1 || i == 3 {
                    script.line("file");
                }
            }
            script.line("pages");
            script.line("file");
        }
    }
}

/// The high bank by each of the eight CHR registers, at 31 and 32 banks and a byte below, on every mapper.
pub fn high_bank(script: &mut Script) {
    script.about("the high bank");
    for (mapper, prg_rom, chr_rom) in [
        (16, 507_904, 131_072),
        (16, 524_287, 131_072),
        (16, 524_288, 131_072),
        (16, 524_288, 0),
        (153, 262_144, 0),
        (153, 524_288, 131_072),
        (157, 524_288, 0),
        (157, 262_144, 8192),
        (159, 540_672, 131_072),
        (159, 1, 1),
    ] {
        let desc =
            Desc { mapper, sub: 5, nes2: 1, mir: 1, access: 4, sizes: [prg_rom, chr_rom, 8192, 0, 0, 0, 0], rule: 0 };
        script.fit(&desc);
        for register in 0..8 {
            script.write(0x8000 | register, 0xFF);
            script.write(0x8008, 0xF0 | register as u8);
            if register % 4 == 0 {
                script.line("pages");
            }
            script.write(0x8000 | register, 0xFE);
        }
        for register in 0..8 {
            script.write(0x8000 | register, 30 * register as u8 + 2);
        }
        script.line("pages");
        script.line("file");
    }
}

/// Counters on both sides of the clocks that are run, counted and single, with stops in between.
pub fn counters(script: &mut Script) {
    script.about("counters and clocks");
    for (mapper, sub) in MAPPERS {
        script.fit(&plain(mapper, sub, 4));
        for counter in [0_u16, 1, 2, 3, 255, 256, 257, 65_534, 65_535] {
            let [low, high] = counter.to_le_bytes();
            for around in [-1_i64, 0, 1, 2, 65_535, 65_536, 65_537, 131_073] {
                let Ok(count) = u32::try_from(i64::from(counter) + around) else { continue };
                script.write(0x800C, high);
                script.write(0x800B, low);
                script.write(0x800A, 1);
                script.clocks(count);
                script.clocks(1);
                script.write(0x800A, 0);
                script.clocks(3);
            }
            script.line("stop");
        }
        script.line("file");
    }
}

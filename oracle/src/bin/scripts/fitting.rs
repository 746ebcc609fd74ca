//! Boards by their description: which chips PRG RAM fits, submappers that are a mapper's number, RAM that a state file
//! enables, and pokes into RAM.
use crate::{boards, rng::Rng, writer::Script};
use tetanes_core::host::Desc;

pub fn all(script: &mut Script) {
    chips_by_ram(script);
    submappers_like_mappers(script);
    ram_enabled(script);
    pokes(script);
}

/// PRG RAM of the lengths that fit a chip, a byte more and less, and of common lengths; a chip that is not fitted
/// refuses its lines.
fn chips_by_ram(script: &mut Script) {
    script.about("chips by PRG RAM");
    for (mapper, sub, nes2) in [(16, 0, 0), (16, 4, 1), (16, 5, 1), (153, 0, 1), (157, 0, 0), (157, 0, 1), (159, 0, 1)]
    {
        for prg_ram in [0, 127, 128, 129, 255, 256, 257, 512, 8192] {
            let sizes = [262_144, 131_072, 0, prg_ram, 1024, 0, 0];
            script.fit(&Desc { mapper, sub, nes2, mir: 0, access: 4, sizes, rule: 0 });
            script.lines(0, 1, 1);
            script.lines(1, 1, 1);
        }
    }
}

/// Submappers that are the number of a mapper, on every mapper, with the access that `load` sets.
fn submappers_like_mappers(script: &mut Script) {
    script.about("submappers with the number of a mapper");
    const NUMBERS: [u8; 4] = [16, 153, 157, 159];
    for mapper in NUMBERS {
        for sub in NUMBERS {
            script.fit(&boards::plain(mapper.into(), sub, 4));
            for (register, value) in [(11, 0x34), (12, 0x12), (10, 1), (13, 0x60), (3, 8)] {
                script.write(0x8000 | register, value);
            }
            script.read(0x6000);
            script.clocks(1);
            script.line("file");
        }
    }
}

/// RAM enabled, as a state file can say of any mapper: on 153 alone it shuts the registers below 0x8000 and maps RAM.
fn ram_enabled(script: &mut Script) {
    script.about("RAM enabled on every mapper");
    for mapper in [16, 153, 157, 159] {
        let mut state = boards::state_of(&mut Rng::new(u64::from(mapper)), boards::plain(mapper, 0, 4));
        (state.regs.ram_enabled, state.regs.prg_page) = (1, 1);
        script.resume_state(&state);
        script.write(0x6008, 5);
        script.line("pages");
    }
}

/// PRG RAM of more than one window, and pokes at every bit of an address, in RAM of both tables.
fn pokes(script: &mut Script) {
    script.about("153 with PRG RAM of 24,576, enabled; pokes at every bit of an address");
    script.fit(&Desc {
        mapper: 153,
        sub: 0,
        nes2: 0,
        mir: 0,
        access: 4,
        sizes: [32_768, 0, 8192, 24_576, 0, 0, 0],
        rule: 0,
    });
    script.write(0x800D, 0x20);
    for line in ["pages", "image"] {
        script.line(line);
    }
    for (space, first, bits, views) in [
        ("prg", 0x6000, 13, [0x6000, 0x6400, 0x6800, 0x7000, 0x7C00]),
        ("chr", 0x0000, 14, [0x0000, 0x0400, 0x0800, 0x1000, 0x2000]),
    ] {
        for bit in 0..bits {
            script.poke(space, first | 1 << bit, 0xA0 | bit as u8);
        }
        script.poke(space, first | 0x1FFF, 0x5A);
        for view in views {
            script.view(space, view);
        }
    }
}

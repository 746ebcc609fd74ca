//! The image lent as two buffers: views and pokes at the right cut, and at cuts beside it.
use crate::writer::Script;
use tetanes_core::host::Desc;

/// A board with nothing but these sizes.
fn desc(mapper: u16, sizes: [u32; 7]) -> Desc {
    Desc { mapper, sub: 0, nes2: 0, mir: 0, access: 4, sizes, rule: 0 }
}

pub fn all(script: &mut Script) {
    every_kind_of_page(script);
    cuts(script);
    another_length(script);
}

/// Pages that are unmapped, of ROM and of RAM, seen whole and in two buffers, before and after pokes at every bit of an address.
fn every_kind_of_page(script: &mut Script) {
    script.about(
        "two buffers: 153 with RAM of both kinds, enabled; each kind of page, and pokes at every bit of an address",
    );
    let board = desc(153, [32_768, 0, 8192, 8192, 0, 0, 0]);
    let cut = board.ram_start() as u32;
    script.fit(&board);
    script.write(0x800D, 0x20);
    script.line("image");
    for (space, pages) in
        [("prg", [0x0000, 0x6000, 0x7C00, 0x8000, 0xFC00]), ("chr", [0x0000, 0x1C00, 0x2000, 0x2400, 0xE000])]
    {
        for addr in pages {
            script.view(space, addr);
            script.view2(space, addr, cut);
        }
        for bit in 0..16 {
            script.poke2(space, 1 << bit, 0xA0 | bit as u8, cut);
            script.poke2(space, 0x6000 | 1 << bit, 0x50 | bit as u8, cut);
        }
        for addr in pages {
            script.view(space, addr);
        }
        script.poke(space, 0x6002, 0x77);
        script.view2(space, 0x6000, cut);
    }
}

/// Each length is tested, not their sum. CHR ROM lies before the cut, CHR RAM behind it.
fn cuts(script: &mut Script) {
    for (mapper, sizes) in [
        (159, [262_144, 131_072, 0, 0, 0, 0, 0]),
        (16, [0; 7]),
        (16, [1, 1, 8192, 1, 1, 1, 1]),
        (157, [40_000, 0, 100, 0, 1024, 4096, 1024]),
    ] {
        script.about(format!("two buffers: {mapper} with {sizes:?}, cut at ram_start and beside it").as_str());
        let board = desc(mapper, sizes);
        let cut = board.ram_start() as u32;
        script.fit(&board);
        script.line("image");
        let prg_end = 1024 + sizes[0].div_ceil(1024) * 1024;
        for (addr, space) in [(0x8000, "prg"), (0x0400, "chr"), (0x2400, "chr")] {
            script.view2(space, addr, cut);
            script.poke2(space, addr, 0x3C, cut);
            script.view(space, addr);
            for wrong in [0, 1, 1023, prg_end, cut - 1024, cut - 1, cut + 1, cut + 1024, cut + 2048, u32::MAX] {
                if wrong != cut {
                    script.view2(space, addr, wrong);
                    script.poke2(space, addr, 0xC3, wrong);
                }
            }
            script.view(space, addr);
        }
    }
}

/// No board; then the image of another board; then none.
fn another_length(script: &mut Script) {
    script.about("two buffers: a board that is refused; an image of another board's length");
    let (small, large) = (desc(16, [0; 7]), desc(16, [16_384, 0, 0, 0, 0, 0, 0]));
    script.fit(&desc(4, [0; 7]));
    script.line("image");
    script.view2("prg", 0x8000, 0);
    script.poke2("chr", 0x2000, 1, 0);
    script.fit(&large);
    script.line("image");
    script.fit(&small);
    for cut in [small.ram_start(), large.ram_start(), 3072, 19_456] {
        script.view2("chr", 0x2000, cut as u32);
        script.poke2("chr", 0x2000, 9, cut as u32);
    }
    script.line("image");
    script.view2("chr", 0x2000, small.ram_start() as u32);
}

//! Random descriptions and random valid states.
use crate::rng::Rng;
use tetanes_core::{
    host::Desc,
    state::{CLOCK_LIMIT, Chip, Reader, Registers, State, cells_of, fitted},
};

pub const LARGEST: u32 = 16_777_216;

/// A description with common sizes; access 3 opens everything.
pub fn plain(mapper: u16, sub: u8, access: u8) -> Desc {
    Desc { mapper, sub, nes2: 0, mir: 0, access, sizes: [262_144, 131_072, 0, 256, 1024, 0, 0], rule: 0 }
}

/// How long the image of a description is.
pub fn image_length(d: &Desc) -> u64 {
    let [prg_rom, chr_rom, chr_ram, prg_ram, battery, ciram, expansion] = d.sizes.map(u64::from);
    let chr = if chr_rom == 0 { chr_ram } else { chr_rom };
    let ciram = if ciram == 0 { 2048 } else { ciram };
    1024 + [prg_rom, chr, prg_ram, battery, ciram, expansion].map(|size| size.div_ceil(1024) * 1024).iter().sum::<u64>()
}

fn size(rng: &mut Rng) -> u32 {
    const ODD: [u32; 16] =
        [0, 1, 1023, 1024, 1025, 2048, 3072, 4096, 5000, 8192, 24_576, 40_960, 131_072, 262_144, 524_287, 524_288];
    match rng.below(20) {
        0..15 => rng.pick(&ODD),
        15 => rng.within(0, 65_536) as u32,
        16 => rng.within(0, 1_048_576) as u32,
        17 => rng.within(0, u64::from(LARGEST)) as u32,
        18 => rng.pick(&[507_904, 507_905, 540_672, 1_048_576, LARGEST - 1, LARGEST]),
        _ => 16_384 * rng.within(0, 64) as u32,
    }
}

/// A description that is fitted, of rule 0.
pub fn description(rng: &mut Rng) -> Desc {
    let mapper = rng.pick(&[16, 16, 16, 153, 157, 157, 157, 157, 159, 159]);
    let sub = if rng.once_in(8) { rng.byte() } else { rng.below(7) as u8 };
    let access = rng.pick(&[0, 1, 2, 3, 3, 3, 3, 4, 4]);
    let mut sizes = [0; 7].map(|_| size(rng));
    // small regions, so that images and views can be had of most boards
    if !rng.once_in(4) {
        for size in &mut sizes {
            if *size > 300_000 {
                *size = 262_144 >> rng.below(8);
            }
        }
    }
    if rng.once_in(2) {
        sizes[1] = 0;
    }
    if rng.once_in(2) {
        sizes[3] = rng.pick(&[0, 128, 256, 256, 8192]);
    }
    if rng.once_in(2) {
        sizes[4] = rng.pick(&[0, 1024]);
    }
    if rng.once_in(2) {
        sizes[5] = rng.pick(&[0, 1, 2048, 3072, 4096]);
    }
    if mapper == 16 && rng.once_in(2) {
        return Desc {
            mapper,
            sub: rng.pick(&[0, 5]),
            nes2: rng.bit(),
            mir: rng.below(5) as u8,
            access,
            sizes: with_chip(sizes),
            rule: 0,
        };
    }
    Desc { mapper, sub, nes2: rng.bit(), mir: rng.below(5) as u8, access, sizes, rule: 0 }
}

fn with_chip(mut sizes: [u32; 7]) -> [u32; 7] {
    sizes[3] = 256;
    sizes
}

/// A description that is refused, by one rule or by several.
pub fn refused(rng: &mut Rng) -> Desc {
    let mut d = description(rng);
    for _ in 0..rng.within(1, 2) {
        match rng.below(5) {
            0 => d.mapper = rng.pick(&[0, 1, 15, 17, 18, 152, 154, 156, 158, 160, 272, 65_535]),
            1 => d.sizes[rng.below(7) as usize] = rng.pick(&[LARGEST + 1, LARGEST + 1024, 1 << 31, u32::MAX]),
            2 => d.nes2 = rng.pick(&[2, 3, 255]),
            3 => d.mir = rng.pick(&[5, 6, 255]),
            _ => d.access = rng.pick(&[5, 6, 255]),
        }
    }
    d
}

fn registers(rng: &mut Rng) -> Registers {
    let counter = if rng.once_in(2) { rng.below(6) as u16 } else { rng.next() as u16 };
    Registers {
        prg_page: rng.below(16) as u8,
        high_bank: 16 * rng.bit(),
        ram_enabled: rng.bit(),
        chr_regs: [0; 8].map(|_| rng.byte()),
        counter,
        counting: rng.bit(),
        pending: rng.bit(),
        reload: rng.next() as u16,
        mirroring: rng.below(5) as u8,
        chr_banks: [0; 8].map(|_| rng.byte()),
    }
}

/// A number of up to 20 digits, each length as likely.
pub fn number(rng: &mut Rng) -> u64 {
    match rng.within(1, 21) {
        20 => rng.within(10_u64.pow(19), u64::MAX),
        21 => rng.pick(&[0, 1, 9, 10, u64::MAX, 4_901_234_567_894, 4_901_234, 9_999_999_999_999, 10_000_000_000_000]),
        digits => rng.within(10_u64.pow(digits as u32 - 1) - u64::from(digits == 1), 10_u64.pow(digits as u32) - 1),
    }
}

fn reader(rng: &mut Rng) -> Reader {
    let clock = match rng.below(6) {
        0 => rng.sized(20),
        1 => rng.sized(62),
        2 => CLOCK_LIMIT - rng.sized(33),
        3 => CLOCK_LIMIT - rng.below(10),
        4 => CLOCK_LIMIT,
        _ => rng.below(200_000),
    };
    let since = if rng.once_in(3) { rng.sized(62) } else { rng.below(162_000) };
    let length = if rng.once_in(3) { rng.below(161) } else { rng.pick(&[0, 1, 90, 125, 132, 159, 160]) };
    Reader {
        clock,
        insert_clock: clock.saturating_sub(since),
        number: number(rng),
        digits: rng.below(21) as u8,
        modules: (0..length).map(|_| 8 * rng.bit()).collect(),
    }
}

pub fn chip(rng: &mut Rng, model: u8) -> Chip {
    let modes = if model == 1 { 6 } else { 7 };
    let addr = if rng.once_in(3) { rng.pick(&[0, 1, 126, 127, 128, 254, 255]) } else { rng.byte() };
    let full = rng.once_in(2);
    Chip {
        model,
        mode: rng.below(modes) as u8,
        next_mode: rng.below(modes) as u8,
        chip_addr: if rng.once_in(2) { 0xA0 | rng.byte() } else { rng.byte() },
        addr: if model == 1 { addr & 127 } else { addr },
        data: rng.byte(),
        counter: rng.pick(&[0, 1, 2, 3, 4, 5, 6, 7, 7, 7, 8, 8, 8]),
        output: rng.bit(),
        scl: rng.bit(),
        sda: rng.bit(),
        cells: (0..cells_of(model)).map(|_| if full { rng.byte() } else { 0 }).collect(),
    }
}

/// A valid state of a description, whether or not calls can lead to it.
pub fn state_of(rng: &mut Rng, desc: Desc) -> State {
    let parts = fitted(&desc);
    State {
        desc,
        regs: registers(rng),
        reader: parts.reader.then(|| reader(rng)),
        standard: parts.standard.map(|model| chip(rng, model)),
        extra: parts.extra.map(|model| chip(rng, model)),
    }
}

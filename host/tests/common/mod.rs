//! What the tests share: numbers at random, carts, events and states of both sides.
#![allow(dead_code)] // no test uses all of it
use molbitak::{Board, Cart, Event, layout::BoardC, raw};
use tetanes_core::{
    HOW_TO_HAVE_THEM, PUBLISHED, host,
    state::{Chip, Reader, Registers, State, cells_of, fitted},
    state_file::encode,
};

/// A fixed sequence of numbers.
pub struct Rng(pub u64);

impl Rng {
    pub fn below(&mut self, n: u64) -> u64 {
        self.0 ^= self.0 << 13;
        self.0 ^= self.0 >> 7;
        self.0 ^= self.0 << 17;
        (self.0 >> 11) % n
    }

    pub fn byte(&mut self) -> u8 {
        self.below(256) as u8
    }

    pub fn of<T: Copy>(&mut self, list: &[T]) -> T {
        list[self.below(list.len() as u64) as usize]
    }
}

/// Whether there is a published Rust to compare with. Says so where there is none.
pub fn published() -> bool {
    if !PUBLISHED {
        eprintln!("not compared with the published Rust: {HOW_TO_HAVE_THEM}");
    }
    PUBLISHED
}

/// A cart that is not refused.
pub fn cart(r: &mut Rng) -> Cart {
    let mapper_num = r.of(&[16, 153, 157, 157, 159]);
    Cart {
        prg_rom_size: r.of(&[0, 1, 5000, 16_384, 40_960, 131_072, 262_144, 507_904, 524_288]),
        chr_rom_size: r.of(&[0, 0, 0, 1, 3000, 8192, 131_072]),
        chr_ram_size: r.of(&[0, 100, 8192, 32_768]),
        prg_ram_size: r.of(&[0, 128, 256, 2000, 8192]),
        battery_ext_size: r.of(&[0, 256, 1024]),
        ciram_size: r.of(&[0, 1024, 2048, 3072, 4096]),
        ex_ram_size: r.of(&[0, 0, 1024]),
        mapper_num,
        submapper_num: r.of(&[0, 0, 3, 4, 5, 5, 255]),
        nes2: r.below(2) as u8,
        mirroring: r.below(5) as u8,
        sram_access: r.of(&[0, 1, 2, 3, 3, 4, 4]),
        eeprom_rule: r.of(&[0, 0, 1]),
    }
}

/// The Rust's description.
pub fn desc(c: &Cart) -> host::Desc {
    let sizes = [c.prg_rom_size, c.chr_rom_size, c.chr_ram_size, c.prg_ram_size, c.battery_ext_size, c.ciram_size, c.ex_ram_size];
    host::Desc {
        mapper: c.mapper_num,
        sub: c.submapper_num,
        nes2: c.nes2,
        mir: c.mirroring,
        access: c.sram_access,
        sizes,
        rule: c.eeprom_rule,
    }
}

/// The length of the image: 1,024 zero bytes and each region in whole KiB.
pub fn image_len(c: &Cart) -> usize {
    let chr_ram = if c.chr_rom_size == 0 { c.chr_ram_size } else { 0 };
    let ciram = if c.ciram_size == 0 { 2048 } else { c.ciram_size };
    let sizes = [1024, c.prg_rom_size, c.chr_rom_size, c.prg_ram_size, c.battery_ext_size, chr_ram, ciram, c.ex_ram_size];
    sizes.iter().map(|size| (*size as usize).div_ceil(1024) * 1024).sum()
}

/// The first of the kinds that tests use as unknown ones.
pub const UNKNOWN_KIND: u8 = 7;

/// A record of a kind, all other fields 0.
pub fn of_kind(kind: u8) -> Event {
    let mut e = Event::default();
    e.kind = kind;
    e
}

/// An event of any kind, with anything in the fields that its kind does not name. One in a few dozen is refused.
pub fn event(r: &mut Rng) -> Event {
    let kind = match r.below(100) {
        0..35 => 0,
        35..50 => 1,
        50..70 => 2,
        70..73 => 3,
        73..75 => 4,
        75..99 => 5,
        _ => r.byte().max(UNKNOWN_KIND),
    };
    let count = match kind {
        2 => r.of(&[0, 1, 1, 2, 100, 1000, 3000, 999]) as u32,
        3 => r.of(&[0, 7, 8, 8, 12, 13, 13, 14, 20, 21, 269]) as u32,
        _ => r.below(1 << 32) as u32,
    };
    let line = |r: &mut Rng| if r.below(200) == 0 { r.byte() } else { r.below(2) as u8 };
    let digits = 1 + r.below(19) as u32;
    // the bytes past the fields hold anything too
    let mut e = Event::of_words([0, 0, r.below(u64::MAX)]);
    e.kind = kind;
    e.count = count;
    e.number = r.below(10u64.pow(digits));
    e.address = match kind {
        0 => r.of(&[0x8000, 0x8000, 0x8000, 0x6000, 0x7FF0, 0xFFF0, 0x5FF0]) + r.below(16) as u16,
        1 => r.of(&[0x6000, 0x6000, 0x7FFF, 0x5FFF, 0x8000]),
        _ => r.below(65_536) as u16,
    };
    e.value = r.byte();
    e.chip = if r.below(100) == 0 { r.byte() } else { r.below(2) as u8 };
    e.scl = line(r);
    e.sda = line(r);
    e
}

/// The Rust's record of an event.
pub fn rust_event(e: &Event) -> host::Event {
    host::Event {
        kind: e.kind,
        addr: e.address,
        value: e.value,
        count: e.count,
        number: e.number,
        chip: e.chip,
        scl: e.scl,
        sda: e.sda,
    }
}

/// A valid state of a cart, reachable or not, with the clock anywhere up to 2^62.
pub fn state(r: &mut Rng, cart: &Cart) -> State {
    let desc = desc(cart);
    let fitted = fitted(&desc);
    let clock = r.of(&[0, 1, 999, 1000, 123_456, 1 << 40, (1 << 62) - 5, 1 << 62]);
    let modules = (0..r.of(&[0u8, 1, 90, 132, 160])).map(|_| r.of(&[0u8, 8])).collect();
    State {
        regs: Registers {
            prg_page: r.below(16) as u8,
            high_bank: r.of(&[0, 16]),
            ram_enabled: r.below(2) as u8,
            chr_regs: std::array::from_fn(|_| r.byte()),
            counter: r.of(&[0, 1, 5, 100, 0x1234, 0xFFFF]),
            counting: r.below(2) as u8,
            pending: r.below(2) as u8,
            reload: r.below(65_536) as u16,
            mirroring: r.below(5) as u8,
            chr_banks: std::array::from_fn(|_| r.byte()),
        },
        reader: fitted.reader.then(|| Reader {
            clock,
            insert_clock: clock - r.below(clock.min(200_000) + 1),
            number: r.below(u64::MAX),
            digits: r.below(21) as u8,
            modules,
        }),
        standard: fitted.standard.map(|model| chip(r, model)),
        extra: fitted.extra.map(|model| chip(r, model)),
        desc,
    }
}

fn chip(r: &mut Rng, model: u8) -> Chip {
    let modes = if model == 1 { 6 } else { 7 };
    Chip {
        model,
        mode: r.below(modes) as u8,
        next_mode: r.below(modes) as u8,
        chip_addr: r.byte(),
        addr: if model == 1 { r.below(128) as u8 } else { r.byte() },
        data: r.byte(),
        counter: r.below(9) as u8,
        output: r.below(2) as u8,
        scl: r.below(2) as u8,
        sda: r.below(2) as u8,
        cells: (0..cells_of(model)).map(|_| r.byte()).collect(),
    }
}

/// A board in a valid state at random.
pub fn board(r: &mut Rng) -> Board {
    let cart = cart(r);
    Board::resume(&encode(&state(r, &cart))).expect("a valid state")
}

/// The state file of a board.
pub fn file(board: &Board) -> Vec<u8> {
    let mut file = Vec::new();
    board.save(&mut file);
    file
}

/// An event of each kind, none of them refused by a Datach board with both chips.
pub fn one_of_each() -> [Event; 6] {
    [Event::write(0x8008, 3), Event::read(0x6000), Event::clocks(1), Event::card(1, 13), Event::insert(), Event::lines(0, 1, 1)]
}

/// The refusal of the checked event, or 0.
pub fn checked(b: &mut BoardC, e: Event) -> u8 {
    raw::molbitak_event(b, e).bytes()[0]
}

//! Boards and inputs, the same for both sides.
use molbitak::{Board, Cart, Event};
use tetanes_core::host;

/// A fixed sequence of numbers.
pub struct Rng(pub u64);

impl Rng {
    pub fn below(&mut self, n: u64) -> u64 {
        self.0 ^= self.0 << 13;
        self.0 ^= self.0 >> 7;
        self.0 ^= self.0 << 17;
        (self.0 >> 11) % n
    }
}

/// A cart by mapper, submapper and sizes (PRG ROM, CHR ROM, CHR RAM, PRG RAM, battery extension, CIRAM, expansion RAM); access
/// ReadWrite, so that register 13 reaches the chips.
pub fn cart(mapper_num: u16, submapper_num: u8, sizes: [u32; 7]) -> Cart {
    let [prg_rom_size, chr_rom_size, chr_ram_size, prg_ram_size, battery_ext_size, ciram_size, ex_ram_size] = sizes;
    Cart {
        prg_rom_size,
        chr_rom_size,
        chr_ram_size,
        prg_ram_size,
        battery_ext_size,
        ciram_size,
        ex_ram_size,
        mapper_num,
        submapper_num,
        nes2: 0,
        mirroring: 0,
        sram_access: 3,
        eeprom_rule: 0,
    }
}

/// The Datach board, with CHR RAM.
pub fn datach() -> Cart {
    cart(157, 0, [262_144, 0, 8192, 8192, 1024, 0, 8192])
}

/// The boards whose register writes are timed.
pub fn carts() -> [(&'static str, Cart); 4] {
    [
        ("159, CHR ROM", cart(159, 0, [262_144, 131_072, 0, 8192, 1024, 0, 8192])),
        ("16/5, CHR ROM, 512 KiB PRG", cart(16, 5, [524_288, 131_072, 0, 256, 1024, 0, 0])),
        ("153, CHR RAM", cart(153, 0, [262_144, 0, 8192, 8192, 1024, 0, 8192])),
        ("157, CHR RAM", datach()),
    ]
}

/// Both boards of a cart.
pub fn fit(c: &Cart) -> (Board, host::Board) {
    let desc = host::Desc {
        mapper: c.mapper_num,
        sub: c.submapper_num,
        nes2: c.nes2,
        mir: c.mirroring,
        access: c.sram_access,
        sizes: [c.prg_rom_size, c.chr_rom_size, c.chr_ram_size, c.prg_ram_size, c.battery_ext_size, c.ciram_size, c.ex_ram_size],
        rule: c.eeprom_rule,
    };
    (Board::load(c).expect("a listed cart"), desc.fit().expect("a listed cart"))
}

/// Fails where the two boards are not equal in every field.
pub fn same(what: &str, ours: &Board, rust: &host::Board) {
    let mut file = Vec::new();
    ours.save(&mut file);
    assert_eq!(file, rust.file(), "{what}: the boards differ");
}

/// The Rust's record of an event.
pub fn rust_event(e: &Event) -> host::Event {
    host::Event {
        kind: e.kind,
        addr: e.address,
        value: e.value,
        count: e.count,
        number: e.number,
        chip: e.chip,
        scl: e.scl,
        sda: e.sda,
    }
}

/// Register writes over all sixteen registers.
pub fn writes(n: usize) -> Vec<(u16, u8)> {
    let mut r = Rng(88_172_645_463_325_252);
    (0..n).map(|_| (0x8000 | r.below(16) as u16, r.below(256) as u8)).collect()
}

/// Addresses of the CPU, and a byte for each.
pub fn addresses(n: usize) -> Vec<(u16, u8)> {
    let mut r = Rng(362_436_069);
    (0..n).map(|_| (r.below(65_536) as u16, r.below(256) as u8)).collect()
}

/// Levels of SCL and SDA, each at random.
pub fn random_lines(n: usize) -> Vec<(u8, u8)> {
    let mut r = Rng(1_234_567);
    (0..n).map(|_| (r.below(2) as u8, r.below(2) as u8)).collect()
}

/// Whole transactions: at each address a byte is written and read back. Bits go low first, three levels a bit.
pub fn transactions(x24c02: bool) -> Vec<(u8, u8)> {
    let mut lines = Vec::new();
    for a in 0..128u8 {
        let value = a ^ 0x5A;
        // an X24C02 takes its slave byte first, and an address right after it, with no acknowledge clock
        let write: &[(u8, bool)] = if x24c02 { &[(0xA0, false), (a, true), (value, true)] } else { &[(a, true), (value, true)] };
        lines.extend([(0, 1), (1, 1), (1, 0), (0, 0)]);
        for &(byte, acknowledged) in write {
            send(&mut lines, byte, acknowledged);
        }
        lines.extend([(0, 0), (1, 0), (1, 1)]);
        // back: X24C02 by a slave byte with the read bit, X24C01 by the address with it
        lines.extend([(0, 1), (1, 1), (1, 0), (0, 0)]);
        send(&mut lines, if x24c02 { 0xA1 } else { a | 0x80 }, true);
        for _ in 0..8 {
            lines.extend([(1, 1), (0, 1)]);
        }
        lines.extend([(1, 1), (0, 1), (0, 0), (1, 0), (1, 1)]);
    }
    lines
}

fn send(lines: &mut Vec<(u8, u8)>, byte: u8, acknowledged: bool) {
    for bit in 0..8 {
        let sda = byte >> bit & 1;
        lines.extend([(0, sda), (1, sda), (0, sda)]);
    }
    if acknowledged {
        lines.extend([(1, 0), (0, 0)]);
    }
}

/// The same for an X24C02 under rule 1: high bits first, a ninth clock after every byte, and the byte read is not acknowledged.
pub fn transactions_by_datasheet() -> Vec<(u8, u8)> {
    let mut lines = Vec::new();
    let start = [(0, 1), (1, 1), (1, 0), (0, 0)];
    for a in 0..128u8 {
        let value = a ^ 0x5A;
        lines.extend(start);
        for byte in [0xA0, a, value] {
            send(&mut lines, byte.reverse_bits(), true);
        }
        lines.extend([(0, 0), (1, 0), (1, 1)]);
        lines.extend(start);
        send(&mut lines, 0xA0_u8.reverse_bits(), true);
        send(&mut lines, a.reverse_bits(), true);
        lines.extend(start);
        send(&mut lines, 0xA1_u8.reverse_bits(), true);
        for _ in 0..9 {
            lines.extend([(1, 1), (0, 1)]);
        }
        lines.extend([(0, 0), (1, 0), (1, 1)]);
    }
    lines
}

/// What a mixed session is made of.
pub const MIX: &str = "30 % register writes (all sixteen), 20 % device reads, 25 % clocks, 24 % line changes (both chips), 1 % cards with insertion";

/// A mixed session on 157; a clocks event counts 1 to `clocks`.
pub fn mixed(n: usize, clocks: u64) -> Vec<Event> {
    let mut r = Rng(42);
    let mut events = Vec::with_capacity(n + 1);
    while events.len() < n {
        match r.below(100) {
            0..30 => events.push(Event::write(0x8000 | r.below(16) as u16, r.below(256) as u8)),
            30..50 => events.push(Event::read(0x6000)),
            50..75 => events.push(Event::clocks(1 + r.below(clocks) as u32)),
            75..99 => events.push(Event::lines(r.below(2) as u8, r.below(2) as u8, r.below(2) as u8)),
            _ => events.extend([Event::card(r.below(10_000_000_000_000), 13), Event::insert()]),
        }
    }
    events
}

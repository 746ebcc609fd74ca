//! Views and pokes of two buffers, against those of the two joined and against the published memory, byte for byte.
mod common;

use common::{Rng, board, cart, desc, event, image_len, published, rust_event};
use molbitak::{Board, Cart, Event, Refusal};
use tetanes_core::host::pat;

/// 153 with RAM of both kinds, enabled.
fn with_ram() -> Board {
    let cart =
        Cart { mapper_num: 153, prg_rom_size: 32_768, chr_ram_size: 8192, prg_ram_size: 8192, sram_access: 4, ..Cart::default() };
    let mut board = Board::load(&cart).unwrap();
    board.write_register(0x800D, 0x20);
    board
}

#[test]
fn lengths() {
    let lengths = |cart: Cart| {
        let board = Board::load(&cart).unwrap();
        assert_eq!(board.rom_len() + board.ram_len(), board.image_len());
        (board.rom_len(), board.ram_len())
    };
    assert_eq!(lengths(*with_ram().cart()), (33_792, 18_432));
    let with_chr_rom = Cart { mapper_num: 159, prg_rom_size: 262_144, chr_rom_size: 131_072, ..Cart::default() };
    assert_eq!(lengths(with_chr_rom), (394_240, 2048));
    assert_eq!(lengths(Cart { mapper_num: 16, ..Cart::default() }), (1024, 2048));
}

/// At every address both views are those of the image whole, and lie in the buffer that the entry's offset falls in.
#[test]
fn every_page() {
    let board = with_ram();
    let image: Vec<u8> = (0..board.image_len()).map(pat).collect();
    let (rom, ram) = image.split_at(board.rom_len());
    let tables = board.page_tables();
    for addr in (0..=u16::MAX).step_by(512) {
        let views = [
            (board.prg_page_split(rom, ram, addr), board.prg_page(&image, addr), tables.prg[usize::from(addr / 1024)]),
            (board.chr_page_split(rom, ram, addr), board.chr_page(&image, addr), tables.chr[usize::from(addr % 16_384 / 1024)]),
        ];
        for (split, whole, page) in views {
            let split = split.unwrap();
            assert_eq!(split, whole.unwrap());
            let offset = page.offset();
            let part = if offset < rom.len() { &rom[offset..] } else { &ram[offset - rom.len()..] };
            assert!(std::ptr::eq(split, &part[..1024]));
        }
    }
}

/// Each length is tested, not their sum; a refusal leaves both buffers.
#[test]
fn wrong_lengths() {
    let board = with_ram();
    let image: Vec<u8> = (0..board.image_len() + 4096).map(pat).collect();
    let (first, second) = (board.rom_len(), board.ram_len());
    for (n, m) in [
        (0, 0),
        (first - 1, second + 1),
        (first + 1, second - 1),
        (first - 1, second),
        (first + 1, second),
        (first, second - 1),
        (first, second + 1),
        (first + 1024, second - 1024),
        (first - 1024, second + 1024),
        (0, first + second),
        (first + second, 0),
        (second, first),
    ] {
        let (rom, mut ram) = (&image[..n], image[n..n + m].to_vec());
        for addr in [0x0000, 0x2000, 0x6000, 0x8000, 0xFFFF] {
            assert_eq!(board.prg_page_split(rom, &ram, addr), Err(Refusal::ImageLength));
            assert_eq!(board.chr_page_split(rom, &ram, addr), Err(Refusal::ImageLength));
            assert_eq!(board.prg_poke_split(rom, &mut ram, addr, 1), Err(Refusal::ImageLength));
            assert_eq!(board.chr_poke_split(rom, &mut ram, addr, 1), Err(Refusal::ImageLength));
        }
        assert_eq!(ram, image[n..n + m]);
    }
}

/// A poke leaves the two joined as the poke of the two joined does.
#[test]
fn pokes_of_the_joined() {
    let mut r = Rng(79);
    let mut stored = [0; 2];
    for _ in 0..2000 {
        let board = board(&mut r);
        let len = image_len(board.cart());
        if len > 300_000 {
            continue;
        }
        let image: Vec<u8> = (0..len).map(|i| (i / 1024 * 5 + i) as u8).collect();
        // half of the addresses where PRG RAM is
        let (first, size) = r.of(&[(0x6000, 0x2000), (0, 0x10000)]);
        let (addr, val) = ((first + r.below(size)) as u16, r.byte());
        let (rom, ram) = image.split_at(board.rom_len());
        let (mut prg, mut chr) = (ram.to_vec(), ram.to_vec());
        board.prg_poke_split(rom, &mut prg, addr, val).unwrap();
        board.chr_poke_split(rom, &mut chr, addr, val).unwrap();
        let (mut whole_prg, mut whole_chr) = (image.clone(), image.clone());
        board.prg_poke(&mut whole_prg, addr, val).unwrap();
        board.chr_poke(&mut whole_chr, addr, val).unwrap();
        for (i, (split, whole)) in [(prg, whole_prg), (chr, whole_chr)].into_iter().enumerate() {
            stored[i] += u32::from(split != ram);
            assert_eq!([rom, &split].concat(), whole);
        }
    }
    assert!(stored.iter().all(|n| *n > 10), "{stored:?} pokes stored a byte that was not there");
}

#[test]
fn published_memory() {
    if !published() {
        return;
    }
    let mut r = Rng(80);
    for _ in 0..300 {
        let cart = cart(&mut r);
        let mut ours = Board::load(&cart).unwrap();
        let mut rust = desc(&cart).fit().unwrap_or_else(|n| panic!("refused with {n}"));
        rust.pattern();
        let mut rom: Vec<u8> = (0..image_len(&cart)).map(pat).collect();
        let mut ram = rom.split_off(desc(&cart).ram_start());
        for _ in 0..60 {
            let mut e = event(&mut r);
            e.kind = Event::WRITE;
            ours.write_register(e.address, e.value);
            rust.event(&rust_event(&e));
            let (addr, val) = (r.below(65_536) as u16, r.byte());
            let at = usize::from(addr % 1024);
            assert_eq!(ours.prg_page_split(&rom, &ram, addr).unwrap()[at], rust.mem.prg_peek(addr));
            assert_eq!(ours.chr_page_split(&rom, &ram, addr).unwrap()[at], rust.mem.chr_peek(addr));
            if r.below(2) == 0 {
                ours.prg_poke_split(&rom, &mut ram, addr, val).unwrap();
                rust.mem.prg_write(addr, val);
            } else {
                ours.chr_poke_split(&rom, &mut ram, addr, val).unwrap();
                rust.mem.chr_write(addr, val);
            }
        }
        assert_eq!([rom, ram].concat(), rust.image());
    }
}

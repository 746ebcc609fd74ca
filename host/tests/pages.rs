//! Views and pokes against the published memory, byte for byte.
mod common;

use common::{Rng, cart, desc, event, image_len, published, rust_event};
use molbitak::{Board, Event};
use tetanes_core::host::pat;

#[test]
fn views_and_pokes() {
    if !published() {
        return;
    }
    let mut r = Rng(77);
    for _ in 0..300 {
        let cart = cart(&mut r);
        let mut ours = Board::load(&cart).unwrap();
        let mut rust = desc(&cart).fit().unwrap_or_else(|n| panic!("refused with {n}"));
        let mut image: Vec<u8> = (0..image_len(&cart)).map(pat).collect();
        rust.pattern();
        assert_eq!(image.len(), rust.mem.len());
        for _ in 0..60 {
            let mut e = event(&mut r);
            e.kind = Event::WRITE;
            ours.write_register(e.address, e.value);
            rust.event(&rust_event(&e));
            let (addr, val) = (r.below(65_536) as u16, r.byte());
            let at = usize::from(addr % 1024);
            assert_eq!(ours.prg_page(&image, addr).unwrap()[at], rust.mem.prg_peek(addr));
            assert_eq!(ours.chr_page(&image, addr).unwrap()[at], rust.mem.chr_peek(addr));
            if r.below(2) == 0 {
                ours.prg_poke(&mut image, addr, val).unwrap();
                rust.mem.prg_write(addr, val);
            } else {
                ours.chr_poke(&mut image, addr, val).unwrap();
                rust.mem.chr_write(addr, val);
            }
        }
        assert_eq!(image, rust.image());
    }
}

/// A view is the page of the table's entry, and a poke stores one byte there if the entry is writable.
#[test]
fn views_are_the_tables() {
    let mut r = Rng(78);
    for _ in 0..2000 {
        let board = common::board(&mut r);
        let len = image_len(board.cart());
        if len > 300_000 {
            continue;
        }
        let image: Vec<u8> = (0..len).map(|i| (i / 1024 * 7 + i) as u8).collect();
        let tables = board.page_tables();
        assert_eq!(tables.refusal(), None);
        let addr = r.below(65_536) as u16;
        let (at, val) = (usize::from(addr % 1024), r.byte());
        let pages = [tables.prg[usize::from(addr / 1024)], tables.chr[usize::from(addr % 16_384 / 1024)]];
        assert_eq!(board.image_len(), len);
        let views = [board.prg_page(&image, addr).unwrap(), board.chr_page(&image, addr).unwrap()];
        let (mut prg, mut chr) = (image.clone(), image.clone());
        board.prg_poke(&mut prg, addr, val).unwrap();
        board.chr_poke(&mut chr, addr, val).unwrap();
        for ((page, view), poked) in pages.into_iter().zip(views).zip([prg, chr]) {
            assert_eq!(view, &image[page.offset()..page.offset() + 1024]);
            let mut wanted = image.clone();
            if page.is_writable() {
                wanted[page.offset() + at] = val;
            }
            assert_eq!(poked, wanted);
        }
    }
}

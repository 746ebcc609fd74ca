//! Views of a page and pokes into one, of an image whole and of the same in two buffers. Beside a page that is read through a view stand
//! 1,024 of the Rust's `prg_peek`, beside a poke its `prg_write`. The Rust looks a byte up in the page table that it keeps; ours test the
//! board and the lengths each time, and find the page's entry.
use crate::{
    inputs::{addresses, carts, fit},
    timing::{Row, alone, both},
};
use std::hint::black_box;

/// The bytes of a page added up, so that each is read.
fn sum(page: impl Iterator<Item = u8>) -> u32 {
    page.map(u32::from).sum()
}

pub fn views(rows: &mut Vec<Row>) {
    const M: u64 = 1_000;
    const PAGES: u64 = 100;
    let addresses = addresses(M as usize);
    for (name, cart) in [carts()[0], carts()[2]] {
        let (mut ours, mut rust) = fit(&cart);
        ours.write_register(0x800D, 0x20);
        rust.event(&tetanes_core::host::Event { addr: 0x800D, value: 0x20, ..Default::default() });
        rust.pattern();
        let mut image = rust.image();
        let (rom, mut ram) = (image[..ours.rom_len()].to_vec(), image[ours.rom_len()..].to_vec());
        let whole = |addr: u16| ours.prg_page(black_box(&image), addr).unwrap();
        let split = |addr: u16| ours.prg_page_split(black_box(&rom), black_box(&ram), addr).unwrap();
        rows.push(alone(&format!("view of a page, {name}"), M, || {
            addresses.iter().for_each(|&(addr, _)| _ = black_box(whole(addr)));
        }));
        rows.push(alone(&format!("view of a page of two buffers, {name}"), M, || {
            addresses.iter().for_each(|&(addr, _)| _ = black_box(split(addr)));
        }));
        let pages = &addresses[..PAGES as usize];
        let peeks = || {
            for &(addr, _) in pages {
                let page = addr & !1023..=addr | 1023;
                black_box(sum(page.map(|addr| black_box(&rust.mem).prg_peek(addr))));
            }
        };
        rows.push(both(
            &format!("page read through a view, {name}; Rust: 1,024 prg_peek"),
            None,
            PAGES,
            || pages.iter().for_each(|&(addr, _)| _ = black_box(sum(whole(addr).iter().copied()))),
            peeks,
        ));
        rows.push(both(
            &format!("the same of two buffers, {name}"),
            None,
            PAGES,
            || pages.iter().for_each(|&(addr, _)| _ = black_box(sum(split(addr).iter().copied()))),
            peeks,
        ));
        for &(addr, _) in &addresses {
            let page = addr & !1023..=addr | 1023;
            assert!(whole(addr).iter().copied().eq(page.map(|addr| rust.mem.prg_peek(addr))), "the pages differ on {name}");
            assert_eq!(whole(addr), split(addr), "the views differ on {name}");
        }
        rows.push(both(
            &format!("poke, {name}; Rust: prg_write"),
            None,
            M,
            || addresses.iter().for_each(|&(addr, val)| ours.prg_poke(black_box(&mut image), addr, val).unwrap()),
            || addresses.iter().for_each(|&(addr, val)| black_box(&mut rust.mem).prg_write(addr, val)),
        ));
        rows.push(both(
            &format!("poke into two buffers, {name}; Rust: prg_write"),
            None,
            M,
            || {
                addresses
                    .iter()
                    .for_each(|&(addr, val)| ours.prg_poke_split(black_box(&rom), black_box(&mut ram), addr, val).unwrap())
            },
            || addresses.iter().for_each(|&(addr, val)| black_box(&mut rust.mem).prg_write(addr, val)),
        ));
        assert!(image == rust.image() && [&rom[..], &ram].concat() == image, "the images differ on {name}");
    }
}

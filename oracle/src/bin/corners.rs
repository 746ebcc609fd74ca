//! What the published code does outside the ranges that document 01 accepts; docs/DIFFERENCES.md cites it.
//! Build with overflow checks: cargo run --profile checked --bin corners
use std::{
    fmt::Debug,
    panic::{self, AssertUnwindSafe, catch_unwind},
    process,
};
use tetanes_core::{
    HOW_TO_HAVE_THEM, PUBLISHED,
    cart::Cart,
    mapper::{
        BandaiFCG, Mapper, Mirroring,
        bandai_fcg::{BarcodeReader, Eeprom, EepromMode, EepromModel},
    },
    memory::{Memory, MemoryLayout},
};

fn show<T: Debug>(what: &str, run: impl FnOnce() -> T) {
    match catch_unwind(AssertUnwindSafe(run)) {
        Ok(answer) => println!("{what}: {answer:?}"),
        Err(panic) => {
            let text = panic.downcast_ref::<String>().cloned();
            let text = text.or_else(|| panic.downcast_ref::<&str>().map(|text| text.to_string()));
            println!("{what}: panics, {}", text.unwrap_or_default());
        }
    }
}

fn chip(model: EepromModel, mode: EepromMode) -> Eeprom {
    let mut chip = Eeprom::new(model);
    chip.mode = mode;
    chip
}

fn main() {
    if !PUBLISHED {
        eprintln!("corners: {HOW_TO_HAVE_THEM}");
        process::exit(2);
    }
    panic::set_hook(Box::new(|_| {}));

    for (mapper, prg_ram) in [(16, 256), (16, 0), (153, 0), (157, 0), (159, 0)] {
        for battery_ext in [0, 1] {
            show(
                &format!("load {mapper}, PRG RAM {prg_ram}, battery extension {battery_ext}: a chip is fitted"),
                || {
                    let mut layout = MemoryLayout::default();
                    (layout.prg_rom, layout.prg_ram, layout.battery_ext) = (16_384, prg_ram, battery_ext);
                    let mut cart = Cart {
                        memory: Memory::new(layout),
                        chr_rom_size: 0,
                        chr_ram_size: 0,
                        prg_rom_size: 16_384,
                        prg_ram_size: prg_ram,
                        mirroring: Mirroring::Vertical,
                        mapper_num: mapper,
                        submapper_num: 0,
                        nes2: false,
                    };
                    let Ok(Mapper::BandaiFCG(board)) = BandaiFCG::load(&mut cart) else { panic!("an error") };
                    board.standard_eeprom.is_some()
                },
            );
        }
    }
    for digits in [20, 21, 255, 65_535, 65_536, u32::MAX] {
        show(&format!("card 1 with {digits} digits, inserted: modules"), || {
            let mut reader = BarcodeReader::new();
            reader.input(1, digits);
            reader.init();
            reader.data.len()
        });
    }
    show("read with an insert clock above the clock", || {
        let mut reader = BarcodeReader::new();
        reader.insert_cycle = 1;
        reader.read()
    });
    show("a clock at the largest usize", || {
        let mut reader = BarcodeReader::new();
        reader.master_clock = usize::MAX;
        reader.clock();
        reader.master_clock
    });
    show("the reader's clock at 2^62, one clock more", || {
        let mut reader = BarcodeReader::new();
        reader.master_clock = 1 << 62;
        reader.clock();
        reader.master_clock == (1 << 62) + 1
    });
    show("X24C02, Write with counter 9, a rise and a fall: mode, counter", || {
        let mut chip = chip(EepromModel::X24C02, EepromMode::Write);
        chip.counter = 9;
        chip.write(1, 1);
        chip.write(0, 1);
        (chip.mode, chip.counter)
    });
    show("X24C02, eight bits with SDA 2: chip_addr, counter", || {
        let mut chip = chip(EepromModel::X24C02, EepromMode::ChipAddr);
        for _ in 0..8 {
            chip.write(1, 2);
            chip.write(0, 2);
        }
        (chip.chip_addr, chip.counter)
    });
    show("X24C02, SCL 1, then 2, a bit: counter", || {
        let mut chip = chip(EepromModel::X24C02, EepromMode::ChipAddr);
        chip.write(1, 0);
        chip.write(2, 0);
        chip.counter
    });
    show("X24C01, address 255, the fall after a byte read: address", || {
        let mut chip = chip(EepromModel::X24C01, EepromMode::Read);
        (chip.addr, chip.counter, chip.prev_scl) = (255, 8, 1);
        chip.write(0, 0);
        chip.addr
    });
}

//! State files that are refused, and faulty lines.
use crate::{boards, rng::Rng, writer::Script};
use tetanes_core::{
    host::Desc,
    state::{CLOCK_LIMIT, Chip, Reader, State},
    state_file::encode,
};

/// A file with a byte changed, cut, lengthened, or with a header that lies.
pub fn file(rng: &mut Rng, file: &[u8]) -> Vec<u8> {
    let mut file = file.to_vec();
    let at = rng.below(file.len() as u64) as usize;
    match rng.below(8) {
        0 => file.truncate(at),
        1 => file.push(rng.pick(&[0, 0, 1, 255])),
        2 => {
            file.insert(at, 0);
        }
        3 => {
            file.remove(at);
        }
        4 => file[at.min(30)] ^= 1 << rng.below(8),
        5 => file[0] = rng.pick(&[0, 1, 3, 6, 255]),
        _ => file[at] = rng.byte(),
    }
    file
}

type Spoil = fn(&mut State);

fn reader(state: &mut State, spoil: impl FnOnce(&mut Reader)) {
    if let Some(reader) = &mut state.reader {
        spoil(reader);
    }
}

fn chips(state: &mut State, spoil: impl Fn(&mut Chip)) {
    state.standard.iter_mut().for_each(&spoil);
    state.extra.iter_mut().for_each(&spoil);
}

/// Each rule of a valid state, broken by the smallest step, or met at its very edge.
const SPOILS: [Spoil; 47] = [
    |s| s.desc.mapper = 18,
    |s| s.desc.mapper = 153,
    |s| s.desc.sizes[0] = boards::LARGEST + 1,
    |s| s.desc.sizes[6] = boards::LARGEST + 1,
    |s| s.desc.sizes[6] = boards::LARGEST,
    |s| s.desc.nes2 = 2,
    |s| s.desc.mir = 5,
    |s| s.desc.mir = 4,
    |s| s.desc.access = 5,
    |s| s.desc.sub = 255,
    |s| s.desc.rule = 1,
    |s| s.desc.rule = 2,
    |s| s.desc.rule = 255,
    |s| s.regs.prg_page = 16,
    |s| s.regs.high_bank = 1,
    |s| s.regs.high_bank = 17,
    |s| s.regs.high_bank = 16,
    |s| s.regs.ram_enabled = 2,
    |s| s.regs.counting = 2,
    |s| s.regs.pending = 255,
    |s| s.regs.mirroring = 5,
    |s| s.regs.mirroring = 4,
    |s| reader(s, |r| (r.clock, r.insert_clock) = (CLOCK_LIMIT, CLOCK_LIMIT)),
    |s| reader(s, |r| r.clock = CLOCK_LIMIT + 1),
    |s| reader(s, |r| r.insert_clock = r.clock),
    |s| reader(s, |r| r.insert_clock = r.clock + 1),
    |s| reader(s, |r| r.digits = 20),
    |s| reader(s, |r| r.digits = 21),
    |s| reader(s, |r| r.modules = vec![8; 160]),
    |s| reader(s, |r| r.modules = vec![8; 161]),
    |s| reader(s, |r| r.modules = vec![8, 1, 0]),
    |s| reader(s, |r| r.modules = vec![0, 9]),
    |s| chips(s, |c| c.model = 3 - c.model),
    |s| chips(s, |c| c.model = 0),
    |s| chips(s, |c| c.mode = 6),
    |s| chips(s, |c| c.next_mode = 6),
    |s| chips(s, |c| c.mode = 7),
    |s| chips(s, |c| c.next_mode = 7),
    |s| chips(s, |c| c.addr = 127),
    |s| chips(s, |c| c.addr = 128),
    |s| chips(s, |c| c.counter = 8),
    |s| chips(s, |c| c.counter = 9),
    |s| chips(s, |c| c.output = 2),
    |s| chips(s, |c| c.scl = 2),
    |s| chips(s, |c| c.sda = 2),
    |s| chips(s, |c| c.cells = vec![1; 384 - c.cells.len()]),
    |s| s.reader = None,
];

/// A state that breaks a rule, or comes close to it.
pub fn state(rng: &mut Rng, mut state: State) -> State {
    rng.pick(&SPOILS)(&mut state);
    state
}

/// Every rule of a valid state on a board of each kind; every byte of a file's contents changed; every length cut
/// at the edges of its parts.
pub fn every_field(script: &mut Script) {
    script.about("state files, valid and not");
    let mut rng = Rng::new(11);
    let sizes = [262_144, 0, 8192, 256, 1024, 0, 0];
    for (mapper, nes2) in [(16, 0), (153, 0), (157, 0), (157, 1), (159, 0)] {
        let desc = Desc { mapper, sub: 0, nes2, mir: 1, access: 3, sizes, rule: 0 };
        let whole = boards::state_of(&mut rng, desc.clone());
        script.fit(&desc);
        for spoil in SPOILS {
            let mut state = whole.clone();
            spoil(&mut state);
            if state != whole {
                script.resume_state(&state);
            }
        }
        script.line("file");
    }
    let desc = Desc { mapper: 157, sub: 0, nes2: 0, mir: 1, access: 3, sizes, rule: 0 };
    let mut whole = boards::state_of(&mut rng, desc.clone());
    whole.reader.as_mut().unwrap().modules.truncate(3);
    let whole = encode(&whole);
    script.resume(&whole);
    for at in 0..31 {
        for change in [1, 255] {
            let mut file = whole.clone();
            file[at] = file[at].wrapping_add(change);
            script.resume(&file);
        }
    }
    for length in [0, 1, 6, 7, 30, 31, 64, 65, 66, 91, 92, 93, whole.len() - 1] {
        script.resume(&whole[..length]);
    }
    script.resume(&[&whole[..], &[0]].concat());
    script.resume(&[&whole[..1], &whole[7..]].concat());
    script.line("file");
}

/// A line that is no command, one for each fault and more.
pub const FAULTS: [&str; 69] = [
    "foo",
    "Fit 1",
    "fit 157 0 0 1 4 262144 0 8192 0 256 2048 0",
    "fit 157 0 0 1 4 262144 0 8192 0 256 2048 0 0 0",
    "fit 157 0 0 1 4 262144 0 8192 0 256 2048 0 256",
    "writes 1 2",
    "-",
    "0x",
    "view",
    "view x 0",
    "view PRG 0",
    "poke 0 0 0",
    "poke",
    "resume 0",
    "resume 0g",
    "resume 00 00",
    "resume 0x00",
    "resume zz 1",
    "write",
    "write 1",
    "write 1 2 3",
    "write x",
    "write x 2 3",
    "write 1 y",
    "write 65536 0",
    "write 0 256",
    "write 18446744073709551616 x",
    "write x 18446744073709551616",
    "read 0x10000",
    "read 0xfffffffffffffffff",
    "clocks 4294967296",
    "card 18446744073709551616 1",
    "card 1 4294967296",
    "card 1",
    "insert 1",
    "insert x",
    "lines 256 0 0",
    "lines 0 0",
    "event 1 2 3 4 5 6 7",
    "event 256 0 0 0 0 0 0 0",
    "state 0",
    "view prg",
    "poke chr 0 256",
    "modul",
    "modules",
    "Module",
    "module 1",
    "module x",
    "view2",
    "view2 0 0",
    "view2 prg",
    "view2 prg 0",
    "view2 prg 0 0 0",
    "view2 chr 65536 0",
    "view2 chr 0 4294967296",
    "View2 prg 0 0",
    "view3 prg 0 0",
    "poke2 x 0 0 0",
    "poke2 prg 0 0",
    "poke2 chr 0 256 0",
    "poke2 prg 0 0 4294967296",
    "decod",
    "decodes 00",
    "Decode 00",
    "decode 0",
    "decode 0g",
    "decode 00 00",
    "decode 0x00",
    "decode zz 1",
];

/// A line of `FAULTS`, or a whole one with characters put in, taken out or changed; `odd` ones among them or not.
pub fn faulty_line(script: &mut Script, rng: &mut Rng, odd: bool) {
    const WHOLE: [&str; 14] = [
        "write 32776 5",
        "read 24576",
        "lines 0 1 1",
        "card 4901234 7",
        "insert",
        "view prg 32768",
        "poke chr 0 255",
        "view2 prg 32768 33792",
        "poke2 chr 0 255 1024",
        "counts",
        "module",
        "resume 00",
        "decode 0008",
        "event 1 24576 0 0 0 0 0 0",
    ];
    if rng.once_in(2) {
        return script.line(rng.pick(&FAULTS));
    }
    let mut line: Vec<char> = rng.pick(&WHOLE).chars().collect();
    for _ in 0..rng.within(1, 3) {
        let at = rng.below(line.len() as u64) as usize;
        let new = if odd && rng.once_in(3) {
            rng.pick(&['\r', '\0', '\x0B', '\x7F', 'é'])
        } else {
            rng.pick(&[' ', '\t', '0', '9', 'x', 'X', 'f', '#', '-', '+', '_', '.', 'r'])
        };
        match rng.below(3) {
            0 => line[at] = new,
            1 => line.insert(at, new),
            _ if line.len() > 1 => _ = line.remove(at),
            _ => (),
        }
    }
    // what it comes to, the program and the oracle must agree on; it counts for no event here
    script.line(&line.into_iter().collect::<String>());
}

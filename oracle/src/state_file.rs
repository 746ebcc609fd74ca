//! The state file, written and read after documents 01 and 02 alone: nothing here knows of the published code.
use crate::{
    host::Desc,
    state::{Chip, Reader, Registers, State, cells_of, fitted},
};

fn description_body(d: &Desc) -> Vec<u8> {
    let mut body = d.mapper.to_le_bytes().to_vec();
    body.extend([d.sub, d.nes2, d.mir, d.access]);
    for size in d.sizes {
        body.extend(size.to_le_bytes());
    }
    body.push(d.rule);
    body
}

fn registers_body(r: &Registers) -> Vec<u8> {
    let mut body = vec![r.prg_page, r.high_bank, r.ram_enabled];
    body.extend(r.chr_regs);
    body.extend(r.counter.to_le_bytes());
    body.extend([r.counting, r.pending]);
    body.extend(r.reload.to_le_bytes());
    body.push(r.mirroring);
    body.extend(r.chr_banks);
    body
}

fn reader_body(r: &Reader) -> Vec<u8> {
    let mut body = r.clock.to_le_bytes().to_vec();
    body.extend(r.insert_clock.to_le_bytes());
    body.extend(r.number.to_le_bytes());
    body.extend([r.digits, r.modules.len() as u8]);
    body.extend(&r.modules);
    body
}

fn chip_body(c: &Chip) -> Vec<u8> {
    let mut body = vec![c.model, c.mode, c.next_mode, c.chip_addr, c.addr, c.data, c.counter, c.output, c.scl, c.sda];
    body.extend(&c.cells);
    body
}

/// The lengths of a description's body: without the rule, which is read and never written, and with it.
const OLD_DESCRIPTION: usize = 34;
const DESCRIPTION: usize = 35;

/// The file of a state.
pub fn encode(s: &State) -> Vec<u8> {
    encode_as(s, DESCRIPTION)
}

/// The file of a state as it was written when there was no rule.
pub fn encode_old(s: &State) -> Vec<u8> {
    encode_as(s, OLD_DESCRIPTION)
}

/// Contents (a byte n, n entries of kind, 0, length, start), then the bodies. The description's body is cut at a length.
fn encode_as(s: &State, description: usize) -> Vec<u8> {
    let mut bodies = vec![(1, description_body(&s.desc)[..description].to_vec()), (2, registers_body(&s.regs))];
    bodies.extend(s.reader.iter().map(|r| (3, reader_body(r))));
    bodies.extend(s.standard.iter().map(|c| (4, chip_body(c))));
    bodies.extend(s.extra.iter().map(|c| (5, chip_body(c))));
    let mut file = vec![bodies.len() as u8];
    let mut start = 1 + 6 * bodies.len();
    for (kind, body) in &bodies {
        file.extend([*kind, 0]);
        file.extend((body.len() as u16).to_le_bytes());
        file.extend((start as u16).to_le_bytes());
        start += body.len();
    }
    for (_, body) in bodies {
        file.extend(body);
    }
    file
}

// ---------------------------------------------------------------- reading

/// Bytes taken from the front of a body.
struct Bytes<'a>(&'a [u8]);

impl<'a> Bytes<'a> {
    fn take(&mut self, n: usize) -> &'a [u8] {
        let (front, rest) = self.0.split_at(n);
        self.0 = rest;
        front
    }

    fn byte(&mut self) -> u8 {
        self.take(1)[0]
    }

    fn half(&mut self) -> u16 {
        u16::from_le_bytes(self.take(2).try_into().unwrap())
    }

    fn word(&mut self) -> u32 {
        u32::from_le_bytes(self.take(4).try_into().unwrap())
    }

    fn long(&mut self) -> u64 {
        u64::from_le_bytes(self.take(8).try_into().unwrap())
    }
}

fn description_of(body: &[u8]) -> Option<Desc> {
    let mut b = Bytes(body);
    [OLD_DESCRIPTION, DESCRIPTION].contains(&body.len()).then(|| Desc {
        mapper: b.half(),
        sub: b.byte(),
        nes2: b.byte(),
        mir: b.byte(),
        access: b.byte(),
        sizes: std::array::from_fn(|_| b.word()),
        rule: b.0.first().copied().unwrap_or(0),
    })
}

fn registers_of(body: &[u8]) -> Option<Registers> {
    let mut b = Bytes(body);
    (body.len() == 26).then(|| Registers {
        prg_page: b.byte(),
        high_bank: b.byte(),
        ram_enabled: b.byte(),
        chr_regs: b.take(8).try_into().unwrap(),
        counter: b.half(),
        counting: b.byte(),
        pending: b.byte(),
        reload: b.half(),
        mirroring: b.byte(),
        chr_banks: b.take(8).try_into().unwrap(),
    })
}

fn reader_of(body: &[u8]) -> Option<Reader> {
    if body.len() < 26 || body.len() != 26 + usize::from(body[25]) {
        return None;
    }
    let mut b = Bytes(body);
    let (clock, insert_clock, number, digits) = (b.long(), b.long(), b.long(), b.byte());
    b.byte();
    Some(Reader { clock, insert_clock, number, digits, modules: b.0.to_vec() })
}

fn chip_of(body: &[u8], model: u8) -> Option<Chip> {
    let mut b = Bytes(body);
    (body.len() == 10 + cells_of(model)).then(|| Chip {
        model: b.byte(),
        mode: b.byte(),
        next_mode: b.byte(),
        chip_addr: b.byte(),
        addr: b.byte(),
        data: b.byte(),
        counter: b.byte(),
        output: b.byte(),
        scl: b.byte(),
        sda: b.byte(),
        cells: b.0.to_vec(),
    })
}

/// The bodies of a file with their kinds, where its contents are as they must be: entries with a 0 in them, kinds
/// that ascend, bodies that adjoin and end the file.
fn bodies_of(file: &[u8]) -> Option<Vec<(u8, &[u8])>> {
    let n = usize::from(*file.first()?);
    let mut start = 1 + 6 * n;
    let entries = file.get(1..start)?;
    let mut bodies: Vec<(u8, &[u8])> = Vec::new();
    for entry in entries.chunks(6) {
        let length = usize::from(u16::from_le_bytes([entry[2], entry[3]]));
        let ascends = bodies.last().is_none_or(|(kind, _)| *kind < entry[0]);
        if entry[1] != 0 || !ascends || usize::from(u16::from_le_bytes([entry[4], entry[5]])) != start {
            return None;
        }
        bodies.push((entry[0], file.get(start..start + length)?));
        start += length;
    }
    (start == file.len()).then_some(bodies)
}

/// The state of a file, where it is one that can be written, or could when there was no rule; else nothing, which is
/// refusal 11.
pub fn decode(file: &[u8]) -> Option<State> {
    let bodies = bodies_of(file)?;
    let body = |kind: u8| bodies.iter().find(|(k, _)| *k == kind).map(|(_, body)| *body);
    let description = body(1)?;
    let desc = description_of(description)?;
    let parts = fitted(&desc);
    let kinds: Vec<u8> =
        [(1, true), (2, true), (3, parts.reader), (4, parts.standard.is_some()), (5, parts.extra.is_some())]
            .into_iter()
            .filter_map(|(kind, there)| there.then_some(kind))
            .collect();
    if bodies.iter().map(|(kind, _)| *kind).ne(kinds) {
        return None;
    }
    let state = State {
        desc,
        regs: registers_of(body(2)?)?,
        reader: if parts.reader { Some(reader_of(body(3)?)?) } else { None },
        standard: match parts.standard {
            Some(model) => Some(chip_of(body(4)?, model)?),
            None => None,
        },
        extra: match parts.extra {
            Some(model) => Some(chip_of(body(5)?, model)?),
            None => None,
        },
    };
    if !state.is_valid() {
        return None;
    }
    debug_assert_eq!(encode_as(&state, description.len()), file, "a file that is read is one that was written");
    Some(state)
}

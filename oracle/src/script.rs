//! Lines of a replay script. What may stand on a line, and which fault is told where it may not, is in the README.
use crate::host::{Desc, Event, unhex};

#[derive(Debug, PartialEq, Eq)]
pub enum Space {
    Prg,
    Chr,
}

#[derive(Debug, PartialEq, Eq)]
pub enum Command {
    Fit(Desc),
    Event(Event),
    Counts,
    Stop,
    File,
    Resume(Vec<u8>),
    Pages,
    State,
    Bars,
    Module,
    Decode(Vec<u8>),
    Image,
    /// Of the image whole, or of two buffers that it is cut into.
    View(Space, u16, Option<u32>),
    Poke(Space, u16, u8, Option<u32>),
}

/// The longest line.
pub const LONGEST: usize = 4096;

type Fault = &'static str;

const NOT_A_NUMBER: Fault = "not a number";
const ABOVE_64_BITS: Fault = "a number above 64 bits";

/// A decimal number, or one of hexadecimal digits after 0x or 0X.
fn number(word: &[u8]) -> Result<u64, Fault> {
    let (digits, base) = match word {
        [b'0', b'x' | b'X', digits @ ..] => (digits, 16),
        digits => (digits, 10),
    };
    let digits: Option<Vec<u64>> = digits.iter().map(|d| Some(u64::from(char::from(*d).to_digit(base)?))).collect();
    let digits = digits.filter(|digits| !digits.is_empty()).ok_or(NOT_A_NUMBER)?;
    let with = |number: u64, digit: u64| number.checked_mul(u64::from(base))?.checked_add(digit);
    digits.into_iter().try_fold(0, with).ok_or(ABOVE_64_BITS)
}

/// As many numbers as there are widths, each of at most so many bits.
fn numbers<const N: usize>(words: &[&[u8]], widths: [u32; N]) -> Result<[u64; N], Fault> {
    let numbers = words.iter().map(|word| number(word)).collect::<Result<Vec<u64>, Fault>>()?;
    if numbers.len() < N {
        return Err("a number is missing");
    }
    let numbers: [u64; N] = numbers.try_into().map_err(|_| "a number too many")?;
    let fits = |(number, width): (&u64, u32)| width == 64 || *number >> width == 0;
    if numbers.iter().zip(widths).all(fits) { Ok(numbers) } else { Err("a value that its field cannot hold") }
}

/// The bytes of at most one word of hexadecimal digits, two a byte; no word is no bytes.
fn bytes(words: &[&[u8]]) -> Result<Vec<u8>, Fault> {
    let digits = match words {
        [] => Some(&b""[..]),
        [word] => Some(*word),
        _ => None,
    };
    digits.and_then(unhex).ok_or("not hexadecimal")
}

/// The command of a line without its line end, nothing for a blank one, or the fault.
pub fn command(line: &[u8]) -> Result<Option<Command>, Fault> {
    if line.len() > LONGEST {
        return Err("longer than 4096 bytes");
    }
    let line = line.split(|byte| *byte == b'#').next().unwrap();
    let words: Vec<&[u8]> = line.split(|byte| b" \t\r".contains(byte)).filter(|word| !word.is_empty()).collect();
    let Some((first, rest)) = words.split_first() else { return Ok(None) };
    let event = |event: Event| Command::Event(event);
    let none = |command: Command| numbers(rest, []).map(|_| command);
    let command = match *first {
        b"fit" => {
            let n = numbers(rest, [16, 8, 8, 8, 8, 32, 32, 32, 32, 32, 32, 32, 8])?;
            Command::Fit(Desc {
                mapper: n[0] as u16,
                sub: n[1] as u8,
                nes2: n[2] as u8,
                mir: n[3] as u8,
                access: n[4] as u8,
                sizes: std::array::from_fn(|i| n[5 + i] as u32),
                rule: n[12] as u8,
            })
        }
        b"write" => {
            let [addr, value] = numbers(rest, [16, 8])?;
            event(Event { kind: 0, addr: addr as u16, value: value as u8, ..Event::default() })
        }
        b"read" => {
            let [addr] = numbers(rest, [16])?;
            event(Event { kind: 1, addr: addr as u16, ..Event::default() })
        }
        b"clocks" => {
            let [count] = numbers(rest, [32])?;
            event(Event { kind: 2, count: count as u32, ..Event::default() })
        }
        b"card" => {
            let [number, digits] = numbers(rest, [64, 32])?;
            event(Event { kind: 3, number, count: digits as u32, ..Event::default() })
        }
        b"insert" => none(event(Event { kind: 4, ..Event::default() }))?,
        b"lines" => {
            let [chip, scl, sda] = numbers(rest, [8, 8, 8])?.map(|n| n as u8);
            event(Event { kind: 5, chip, scl, sda, ..Event::default() })
        }
        b"event" => {
            let n = numbers(rest, [8, 16, 8, 32, 64, 8, 8, 8])?;
            event(Event {
                kind: n[0] as u8,
                addr: n[1] as u16,
                value: n[2] as u8,
                count: n[3] as u32,
                number: n[4],
                chip: n[5] as u8,
                scl: n[6] as u8,
                sda: n[7] as u8,
            })
        }
        b"counts" => none(Command::Counts)?,
        b"stop" => none(Command::Stop)?,
        b"file" => none(Command::File)?,
        b"resume" => Command::Resume(bytes(rest)?),
        b"pages" => none(Command::Pages)?,
        b"state" => none(Command::State)?,
        b"bars" => none(Command::Bars)?,
        b"module" => none(Command::Module)?,
        b"decode" => Command::Decode(bytes(rest)?),
        b"image" => none(Command::Image)?,
        b"view" | b"poke" | b"view2" | b"poke2" => {
            let (space, rest) = match rest.split_first() {
                Some((word, rest)) if *word == b"prg" => (Space::Prg, rest),
                Some((word, rest)) if *word == b"chr" => (Space::Chr, rest),
                _ => return Err("neither prg nor chr"),
            };
            match *first {
                b"view" => {
                    let [addr] = numbers(rest, [16])?;
                    Command::View(space, addr as u16, None)
                }
                b"poke" => {
                    let [addr, value] = numbers(rest, [16, 8])?;
                    Command::Poke(space, addr as u16, value as u8, None)
                }
                b"view2" => {
                    let [addr, cut] = numbers(rest, [16, 32])?;
                    Command::View(space, addr as u16, Some(cut as u32))
                }
                _ => {
                    let [addr, value, cut] = numbers(rest, [16, 8, 32])?;
                    Command::Poke(space, addr as u16, value as u8, Some(cut as u32))
                }
            }
        }
        _ => return Err("unknown word"),
    };
    Ok(Some(command))
}

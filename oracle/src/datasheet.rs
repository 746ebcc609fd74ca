//! The X24C02 under rule 1, written from document 02's slip and, where the slip says "as under 0", from document 01's
//! steps. Nothing here knows of the published code, which has rule 0 alone. Neither does an X24C01 come here: the rule
//! does not affect it.
use crate::state::Chip;

// The modes, by their codes in the state file.
const IDLE: u8 = 0;
const ADDR: u8 = 1;
const READ: u8 = 2;
const WRITE: u8 = 3;
const SEND_ACK: u8 = 4;
const WAIT_ACK: u8 = 5;
const CHIP_ADDR: u8 = 6;

/// Brings the lines of an X24C02 to these levels, 0 or 1 each. Levels that stay change nothing.
pub fn lines(chip: &mut Chip, scl: u8, sda: u8) {
    match (chip.scl, scl) {
        (1, 1) if sda < chip.sda => restart(chip, CHIP_ADDR),
        (1, 1) if sda > chip.sda => stop(chip),
        (0, 1) => clock_rises(chip, sda),
        (1, 0) => clock_falls(chip),
        _ => (),
    }
    (chip.scl, chip.sda) = (scl, sda);
}

/// Goes to a mode with no bit taken yet and the data line let go.
fn restart(chip: &mut Chip, mode: u8) {
    chip.mode = mode;
    chip.counter = 0;
    chip.output = 1;
}

/// STOP keeps the counter, and with it the bits of a byte that was broken off.
fn stop(chip: &mut Chip) {
    chip.mode = IDLE;
    chip.output = 1;
}

/// The next bit's place in its byte: the first of the eight is the highest.
fn next_place(chip: &mut Chip) -> Option<u8> {
    let place = 0x80_u8.checked_shr(chip.counter.into())?;
    chip.counter += 1;
    Some(place)
}

/// Puts a bit at a place of a byte. The byte's other bits stay as they are.
fn put(byte: &mut u8, place: Option<u8>, sda: u8) {
    let Some(place) = place else { return };
    *byte = if sda == 1 { *byte | place } else { *byte & !place };
}

/// A bit goes in or out, or an acknowledge is given or taken. A byte has eight bits; further clocks leave it.
fn clock_rises(chip: &mut Chip, sda: u8) {
    match chip.mode {
        CHIP_ADDR => {
            let place = next_place(chip);
            put(&mut chip.chip_addr, place, sda);
        }
        ADDR => {
            let place = next_place(chip);
            put(&mut chip.addr, place, sda);
        }
        WRITE => {
            let place = next_place(chip);
            put(&mut chip.data, place, sda);
        }
        READ => {
            if let Some(place) = next_place(chip) {
                chip.output = u8::from(chip.data & place != 0);
            }
        }
        SEND_ACK => chip.output = 0,
        // the master acknowledges, and the next cell follows; or it does not, and the read ends
        WAIT_ACK if sda == 0 => {
            chip.next_mode = READ;
            fetch(chip);
        }
        WAIT_ACK => chip.next_mode = IDLE,
        _ => (),
    }
}

/// Ends an acknowledge, or a byte of which all eight bits went.
fn clock_falls(chip: &mut Chip) {
    match chip.mode {
        SEND_ACK | WAIT_ACK => {
            let next_mode = chip.next_mode;
            restart(chip, next_mode);
        }
        CHIP_ADDR if chip.counter == 8 => compare(chip),
        ADDR if chip.counter == 8 => {
            chip.next_mode = WRITE;
            restart(chip, SEND_ACK);
        }
        READ if chip.counter == 8 => {
            // the last bit stays on the line while the chip waits
            chip.mode = WAIT_ACK;
            chip.addr = chip.addr.wrapping_add(1);
        }
        WRITE if chip.counter == 8 => {
            chip.mode = SEND_ACK;
            chip.next_mode = WRITE;
            chip.counter = 0;
            store(chip);
        }
        _ => (),
    }
}

/// The slave byte: 1010, the device bits 000, and last the bit that tells a read from a write. Both are acknowledged.
fn compare(chip: &mut Chip) {
    let (kind, device, reads) = (chip.chip_addr >> 4, chip.chip_addr >> 1 & 7, chip.chip_addr & 1 == 1);
    if kind != 0b1010 || device != 0b000 {
        return restart(chip, IDLE);
    }
    if reads {
        chip.next_mode = READ;
        fetch(chip);
    } else {
        chip.next_mode = ADDR;
    }
    restart(chip, SEND_ACK);
}

/// The addressed cell becomes the byte that goes out.
fn fetch(chip: &mut Chip) {
    chip.data = chip.cells[usize::from(chip.addr)];
}

/// The addressed cell becomes the byte that came in. The address goes on within its four cells: the two low bits wrap.
fn store(chip: &mut Chip) {
    chip.cells[usize::from(chip.addr)] = chip.data;
    let (group, cell) = (chip.addr & !3, chip.addr & 3);
    chip.addr = group | ((cell + 1) % 4);
}

//! Stand-in for `rand`: only `RamState::Random` of memory.rs names it, and the oracle fills no RAM.

pub trait Rng {
    fn fill_bytes(&mut self, dst: &mut [u8]);
}

pub struct ThreadRng;

pub fn rng() -> ThreadRng {
    ThreadRng
}

impl Rng for ThreadRng {
    fn fill_bytes(&mut self, dst: &mut [u8]) {
        dst.fill(0x5A);
    }
}

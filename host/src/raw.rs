//! The boundary as it is: the functions that the crates `molbitak_board`, `molbitak_step`, `molbitak_lines`, `molbitak_views`,
//! `molbitak_split`, `molbitak_cards`, `molbitak_session` and `molbitak_probe` export.
//!
//! Each is proved to end with an answer on every value of its parameters' types, and all but those that take a slice are therefore
//! safe to call. A slice crosses as a pointer and a length.
//!
//! The checked calls take a whole board, and answer 12 for one with a code that no kind has, or that is not valid. The quick calls take
//! parts of a board that is known to be valid: each leaves in them what the event leaves in that board.
use crate::{
    Answer, Cart, Event, ModuleRead, PageTables,
    layout::{BarcodeReader, BoardC, Decoded, DevicesC, EepromC, LoadedC, Regs, SessionC, SplitViewC, ViewC, Written},
};

// SAFETY: the names and types are those of the crates named above, which tests/ hold them to; each function is proved total on its
// parameters' types, keeps no reference, and writes through none but the `&mut` ones and the slices.
#[allow(missing_docs)] // what each does is said at the Rust call that makes use of it, and where it is defined
unsafe extern "C" {
    // molbitak_board: fitting, validity, the checked event
    pub safe fn molbitak_load(cart: Cart) -> LoadedC;
    pub safe fn molbitak_is_valid(b: BoardC) -> bool;
    pub safe fn molbitak_event(b: &mut BoardC, e: Event) -> Answer;
    /// The length of a chip's memory, by its model's code.
    pub safe fn molbitak_rom_size(model: u8) -> usize;

    // molbitak_step and molbitak_lines: the quick calls
    /// The registers after the write are the answer.
    pub safe fn molbitak_write_register(
        cart: Cart,
        regs: Regs,
        standard: &mut EepromC,
        extra: &mut EepromC,
        has_standard: bool,
        has_extra: bool,
        standard_rom: &mut [u8; 256],
        extra_rom: &mut [u8; 256],
        addr: u16,
        val: u8,
    ) -> Regs;
    pub safe fn molbitak_may_read(cart: Cart) -> bool;
    /// What the devices give at any address that they answer at. `times` are the reader's first three numbers.
    pub safe fn molbitak_device_read(devices: &DevicesC, module_count: u8, times: &BarcodeReader, modules: &[u8; 160]) -> u8;
    /// What the reader shows, where one is `fitted`. `times` as above.
    pub safe fn molbitak_module_read(times: &BarcodeReader, module_count: u8, fitted: bool, modules: &[u8; 160]) -> ModuleRead;
    pub safe fn molbitak_clocks(
        clock: &mut u64,
        fitted: bool,
        counter: &mut u16,
        pending: &mut bool,
        enabled: bool,
        count: u32,
    ) -> u8;
    pub safe fn molbitak_card(new_barcode: &mut u64, digit_count: &mut u32, fitted: bool, number: u64, digits: u32) -> u8;
    pub safe fn molbitak_insert(
        insert_cycle: &mut u64,
        module_count: &mut u8,
        modules: &mut [u8; 160],
        fitted: bool,
        clock: u64,
        number: u64,
        digits: u32,
    ) -> u8;
    /// `chip` and `rom` are those of the chip of this number, where there is one; `rule` is the cart's.
    pub safe fn molbitak_lines(
        chip: &mut EepromC,
        rom: &mut [u8; 256],
        number: u8,
        fitted: bool,
        rule: u8,
        scl: u8,
        sda: u8,
    ) -> u8;

    // molbitak_views: page tables, views and pokes
    pub safe fn molbitak_page_tables(cart: Cart, regs: Regs) -> PageTables;
    pub safe fn molbitak_image_len(cart: Cart) -> u64;
    pub safe fn molbitak_prg_view(b: BoardC, len: usize, addr: u16) -> ViewC;
    pub safe fn molbitak_chr_view(b: BoardC, len: usize, addr: u16) -> ViewC;
    /// # Safety
    /// `image` and `len` are those of a slice that nobody else uses meanwhile.
    pub unsafe fn molbitak_prg_poke(b: BoardC, image: *mut u8, len: usize, addr: u16, val: u8) -> u8;
    /// # Safety
    /// As [`molbitak_prg_poke`].
    pub unsafe fn molbitak_chr_poke(b: BoardC, image: *mut u8, len: usize, addr: u16, val: u8) -> u8;

    // molbitak_split: views and pokes of two buffers
    pub safe fn molbitak_ram_start(cart: Cart) -> u64;
    pub safe fn molbitak_prg_view_split(b: BoardC, rom_len: usize, ram_len: usize, addr: u16) -> SplitViewC;
    pub safe fn molbitak_chr_view_split(b: BoardC, rom_len: usize, ram_len: usize, addr: u16) -> SplitViewC;
    /// # Safety
    /// `ram` and `ram_len` are those of a slice that nobody else uses meanwhile.
    pub unsafe fn molbitak_prg_poke_split(b: BoardC, rom_len: usize, ram: *mut u8, ram_len: usize, addr: u16, val: u8) -> u8;
    /// # Safety
    /// As [`molbitak_prg_poke_split`].
    pub unsafe fn molbitak_chr_poke_split(b: BoardC, rom_len: usize, ram: *mut u8, ram_len: usize, addr: u16, val: u8) -> u8;

    // molbitak_cards: the check on a list of modules
    /// # Safety
    /// `list` and `len` are those of a slice that nobody writes meanwhile.
    pub unsafe fn molbitak_decode(list: *const u8, len: usize) -> Decoded;

    // molbitak_session: state files and sessions
    /// # Safety
    /// `buffer` and `len` are those of a slice that nobody else uses meanwhile.
    pub unsafe fn molbitak_state_write(b: BoardC, buffer: *mut u8, len: usize) -> Written;
    /// # Safety
    /// `file` and `len` are those of a slice that nobody writes meanwhile.
    pub unsafe fn molbitak_state_read(file: *const u8, len: usize) -> LoadedC;
    /// The events are three words each, as they lie in memory.
    ///
    /// # Safety
    /// `words` and `count` are those of a slice of words that nobody writes meanwhile, `answers` and `len` those of one that nobody else
    /// uses.
    pub unsafe fn molbitak_session(b: BoardC, words: *const u64, count: usize, answers: *mut u8, len: usize) -> SessionC;

    // molbitak_probe: how a board is laid out
    /// The number at a place of a part of a board, as the library reads it: what tests/layout.rs holds the layout to.
    pub safe fn molbitak_field(b: BoardC, part: u8, i: usize) -> u64;
}

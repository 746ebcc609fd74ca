//! The Bandai FCG and LZ93D50 board of the NES (mappers 16, 153, 157 and 159), with the Datach card reader and its serial EEPROMs,
//! proved. The board is written in Rattle; its build proves it first. This crate is the safe Rust side of it.
//!
//! ```
//! use molbitak::{Access, Board, Cart, EepromRule, Event, Mirroring};
//!
//! let cart = Cart {
//!     mapper_num: 157,
//!     prg_rom_size: 262_144,
//!     chr_ram_size: 8192,
//!     battery_ext_size: 1024,
//!     mirroring: Mirroring::Vertical as u8,
//!     sram_access: Access::AsLoaded as u8,
//!     eeprom_rule: EepromRule::Crate as u8,
//!     ..Cart::default()
//! };
//! let mut board = Board::load(&cart)?;
//! board.input(4_901_234_567_894, 13)?;
//! board.init()?;
//! assert_eq!(board.prg_peek(0x6000), Some(8)); // the quiet zone: light
//! board.clocks(33_000)?;
//! assert_eq!(board.prg_peek(0x6000), Some(0)); // the first bar
//!
//! let mut answers = [0; 6];
//! let end = board.session(&[Event::read(0x6000), Event::clocks(1)], &mut answers)?;
//! assert_eq!((end.records, end.refused, answers), (2, 0, [0, 1, 0, 0, 0, 0]));
//!
//! let mut file = Vec::new();
//! board.save(&mut file);
//! assert_eq!(Board::resume(&file)?, board);
//! # Ok::<(), molbitak::Refusal>(())
//! ```
//!
//! A [`Board`]'s state is private. [`Board::load`], [`Board::resume`] and calls that are proved to keep a board valid are all that make
//! one, so a `Board` is always valid, and its calls need not test it again.
//!
//! [`raw`] is the boundary itself, for those who want the checked calls on a state of their own. Everything `unsafe` of this crate is a
//! call of a function of [`raw`] that takes a slice.
#![warn(clippy::undocumented_unsafe_blocks)]

mod board;
mod cards;
mod cart;
mod event;
pub mod layout;
mod module_read;
mod pages;
pub mod raw;
mod refusal;
mod split;
mod state;

pub use board::{Board, SessionEnd};
pub use cards::{Digits, decode};
pub use cart::{Access, Cart, EepromRule, Mirroring};
pub use event::{Answer, Event, answers};
pub use module_read::ModuleRead;
pub use pages::{Page, PageTables};
pub use refusal::Refusal;
pub use state::STATE_FILE_MAX;

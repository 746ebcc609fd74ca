//! The published Bandai board of tetanes-core 0.17.0, unchanged, and over it the layer that the crate has not:
//! descriptions, event records, refusals and the state file of the scope, document 01, and the X24C02's second rule of
//! document 02.

mod published {
    #![allow(dead_code, unused_imports, clippy::all)]
    include!(concat!(env!("OUT_DIR"), "/published.rs"));
}
// The published files reach each other by these paths of their own crate.
pub use published::memory;

mod board_state;
pub mod cart;
pub mod datasheet;
pub mod decode;
pub mod host;
pub mod mapper;
pub mod ppu;
pub mod replay;
pub mod script;
pub mod state;
pub mod state_file;

/// Whether this was built with the published files. Where TETANES_CORE_SRC was not set, everything builds, and
/// fitting a board panics with [`HOW_TO_HAVE_THEM`].
pub const PUBLISHED: bool = cfg!(published);

/// What to do where [`PUBLISHED`] is false.
pub const HOW_TO_HAVE_THEM: &str = "set TETANES_CORE_SRC to the folder that holds src/mapper/bandai_fcg.rs and \
                                    src/memory.rs of tetanes-core 0.17.0, and build again";

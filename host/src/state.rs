//! The state file.
use crate::{Board, Refusal, layout::Written, raw};

/// The bytes of the longest state file: a Datach board with both chips and a card of 160 modules.
pub const STATE_FILE_MAX: usize = 682;

impl Board {
    /// Makes `file` the board's state file.
    ///
    /// ```
    /// # use molbitak::*;
    /// # let board = Board::load(&Cart { mapper_num: 153, ..Cart::default() })?;
    /// let mut file = Vec::new();
    /// board.save(&mut file);
    /// assert_eq!(file.len(), 74);
    /// assert_eq!(Board::resume(&file)?, board);
    /// # Ok::<(), Refusal>(())
    /// ```
    pub fn save(&self, file: &mut Vec<u8>) {
        let mut buffer = [0; STATE_FILE_MAX];
        let written = self.write(&mut buffer);
        // a valid board and a buffer for the longest file: not refused
        debug_assert_eq!(written.refusal, 0);
        file.clear();
        file.extend_from_slice(&buffer[..written.length]);
    }

    /// Writes the state file to the front of a buffer, keeps the bytes past it, and answers the file's length.
    ///
    /// # Errors
    /// [`Refusal::BufferTooShort`]; then the buffer is as it was.
    pub fn save_into(&self, buffer: &mut [u8]) -> Result<usize, Refusal> {
        let written = self.write(buffer);
        Refusal::check(written.refusal)?;
        Ok(written.length)
    }

    /// The board of a state file. Only what [`Board::save`] can make is taken, and what it could before carts had a rule: a file without
    /// one, a byte shorter, is a board of [`EepromRule::Crate`](crate::EepromRule::Crate).
    ///
    /// # Errors
    /// [`Refusal::NotAStateFile`].
    pub fn resume(file: &[u8]) -> Result<Board, Refusal> {
        // SAFETY: pointer and length are the slice's; the library only reads it.
        Board::of(unsafe { raw::molbitak_state_read(file.as_ptr(), file.len()) })
    }

    fn write(&self, buffer: &mut [u8]) -> Written {
        // SAFETY: pointer and length are the slice's, and `&mut` keeps everybody else from it.
        unsafe { raw::molbitak_state_write(self.state, buffer.as_mut_ptr(), buffer.len()) }
    }
}

//! Memory in which a keyboard starts. Written by hand: tested, not proved.

use crate::parts::keyboard::KeyboardOf;
use crate::parts::layers::{Defaults, Standard};
use core::fmt;
use wuzhikar_log::{NorFlash, PageCount};

/// Memory for a keyboard that has not started. Its only call starts one there, so no call reaches a keyboard that was not
/// started.
///
/// A `static` of it takes RAM alone: it is zeros. [`KeyboardOf::on`] gives the keyboard by value, which costs a stack of twice
/// its size; here nothing large is moved.
///
/// ```
/// # use wuzhikar::{FlashFault, NorFlash};
/// use wuzhikar::{Scan, UnstartedKeyboard};
/// # struct Blank;
/// # impl NorFlash for Blank {
/// #     fn pages(&self) -> usize { 2 }
/// #     fn read_slot(&self, _page: usize, _slot: usize) -> [u8; 8] { [0xff; 8] }
/// #     fn program_slot(&mut self, _page: usize, _slot: usize, _bytes: [u8; 8]) -> Result<(), FlashFault> { Err(FlashFault) }
/// #     fn erase_page(&mut self, _page: usize) -> Result<(), FlashFault> { Err(FlashFault) }
/// # }
/// use std::sync::Mutex;
///
/// static MEMORY: Mutex<UnstartedKeyboard> = Mutex::new(UnstartedKeyboard::NEW);
///
/// # let flash = Blank;
/// let mut memory = MEMORY.lock().unwrap();
/// let keyboard = memory.start(&flash)?;
/// keyboard.scan(Scan::NONE);
/// # Ok::<(), wuzhikar::PageCount>(())
/// ```
#[repr(transparent)]
pub struct UnstartedKeyboardOf<D: Defaults> {
    keyboard: KeyboardOf<D>,
}

/// Memory for a keyboard with the standard default codes.
pub type UnstartedKeyboard = UnstartedKeyboardOf<Standard>;

impl<D: Defaults> UnstartedKeyboardOf<D> {
    /// Memory without a keyboard: zeros.
    pub const NEW: UnstartedKeyboardOf<D> = UnstartedKeyboardOf { keyboard: KeyboardOf::UNSTARTED };

    /// Starts a keyboard in this memory, as [`KeyboardOf::on`] does. The flash is read and not written. A keyboard that was
    /// started here before is gone.
    ///
    /// # Errors
    ///
    /// `PageCount` if the flash has not 2 to 8 pages. It is not read then, and the memory stays as it is.
    pub fn start<F: NorFlash>(&mut self, flash: &F) -> Result<&mut KeyboardOf<D>, PageCount> {
        PageCount::check(flash)?;
        self.keyboard.restart(flash);
        Ok(&mut self.keyboard)
    }

    /// The memory, for a caller that starts a keyboard there at once.
    pub(crate) fn place(&mut self) -> &mut KeyboardOf<D> {
        &mut self.keyboard
    }
}

impl<D: Defaults> fmt::Debug for UnstartedKeyboardOf<D> {
    fn fmt(&self, f: &mut fmt::Formatter<'_>) -> fmt::Result {
        f.debug_struct("UnstartedKeyboard").finish_non_exhaustive()
    }
}

#[cfg(test)]
mod tests;

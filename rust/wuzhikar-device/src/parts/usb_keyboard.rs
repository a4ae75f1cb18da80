// Exported from crates/usb_keyboard/src/lib.rt by bin/export-rust. Edit that file instead.
//! The keyboard on the bus: a command whose status stage the host saw is stored.
//!
//! `UsbKeyboard` is a keyboard with the flash that keeps its keymap, as the device behind the USB device layer
//! (`usb_device::UsbDevice`), or behind a lock and a pace before it (`Guarded`). `UsbKeyboard::write` and `read`
//! make whole control transfers, for a stack that keeps endpoint 0 to itself, and know no lock. Each of its calls says how the session goes
//! on, from the image that the keyboard started on. `UsbKeyboardOf` has a maker's own defaults, and a keyboard that is its own or
//! is lent (`HoldsKeyboard`), and all of this holds for them, and where `Forgetting` stands before it.
//!
//! The guarantee: a feature command that the host saw the end of is in the flash, also behind every power loss, until a later
//! command is accepted that writes the entry. The commands accepted since
//! are those that the host sent behind that status stage: of one command, another, and the first again, the last stays. Behind a
//! lock and a pace the keyboard accepts no command while the lock is set, and at most one for each pace, also where `Forgetting` stands between.
//!
//! What `UsbDevice` says of the device behind it names no first image. So that a session began on what the power loss before
//! it left is said by the clauses of `UsbKeyboard`, and is a premise of the guarantee.

mod device;
mod held;
mod transfers;

pub use device::{UsbKeyboard, UsbKeyboardOf};
pub use held::HoldsKeyboard;

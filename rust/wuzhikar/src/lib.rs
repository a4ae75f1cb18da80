//! The firmware core of a USB keyboard: four layers of 96 keys, kept in NOR flash. A key assignment that was acknowledged to
//! the host survives every power loss, on flash whose torn cells read the same each time and whose erase only sets bits.
//!
//! [`FlashKeyboard`] is the device with its flash; [`Keyboard`] is the device alone, and borrows its flash in the calls that
//! use it. Each call is one event: a scan of the matrix, a packet of endpoint 0, a poll of endpoint 1, a step of the flash
//! work, a bus reset. No call allocates, and only the flash work may wait.
//!
//! ```
//! use wuzhikar::{EpAnswer, FlashFault, FlashKeyboard, NorFlash, Scan};
//! # struct Blank;
//! # impl NorFlash for Blank {
//! #     fn pages(&self) -> usize { 2 }
//! #     fn read_slot(&self, _page: usize, _slot: usize) -> [u8; 8] { [0xff; 8] }
//! #     fn program_slot(&mut self, _page: usize, _slot: usize, _bytes: [u8; 8]) -> Result<(), FlashFault> { Err(FlashFault) }
//! #     fn erase_page(&mut self, _page: usize) -> Result<(), FlashFault> { Err(FlashFault) }
//! # }
//! # let flash = Blank;
//! let mut keyboard = FlashKeyboard::start(flash)?;
//! for _ in 0..5 {
//!     keyboard.scan(Scan { rows: [1, 0, 0, 0, 0, 0] });
//! }
//! let report = keyboard.poll().unwrap();
//! assert_eq!(report[..3], [1, 0, 1]);
//! assert!(matches!(keyboard.in_packet(), EpAnswer::Stall(_)));
//! # Ok::<(), wuzhikar::PageCount>(())
//! ```
//!
//! **Exported from a proved source.** The hidden module `parts` holds the code of crates that are proved in Rattle
//! (Rust with contracts), without what only the prover reads. The proofs are about that source. They cover no flash
//! and no bus: a driver has to do what [`NorFlash`] says of each call. What is written by hand in this crate is tested and
//! not proved.
//!
//! [`debounce`] and [`control_ep`] can be used by themselves; the log that keeps the keymap is the crate [`wuzhikar_log`].
#![cfg_attr(not(test), no_std)]
#![forbid(unsafe_code)]
#![warn(missing_debug_implementations)]

// A file of tests that other crates take too names it so.
#[cfg(test)]
extern crate self as wuzhikar;

#[doc(hidden)]
pub mod calls;
mod face;
mod layout;
#[doc(hidden)]
pub mod parts;
#[doc(hidden)]
pub mod rattle;
mod unstarted;
pub mod usb;
#[cfg(test)]
mod wear;

pub use crate::face::FlashKeyboard;
pub use crate::layout::{KEYS, LAYERS, Layout, Switches};
pub use crate::parts::keyboard::{EpAnswer, InAnswer, Keyboard, KeyboardOf, Protocol, Report, Scan, Why, Work};
pub use crate::parts::layers::{Code, Defaults, KeyNo, Keymap, KeymapError, KeymapOf, LayerNo, Standard, Usages};
pub use crate::unstarted::{UnstartedKeyboard, UnstartedKeyboardOf};
pub use wuzhikar_log;
#[cfg(feature = "sim")]
pub use wuzhikar_log::{FlashError, Mask, SimFlash};
pub use wuzhikar_log::{FlashFault, NorFlash, PAGE_BYTES, PAGE_SLOTS, PageCount, SLOT_BYTES};

/// Debouncing by itself: a key changes when five samples in a row say so.
///
/// ```
/// use wuzhikar::debounce::{Debouncer, Scan};
///
/// let mut debouncer = Debouncer::new();
/// let closed = Scan { rows: [1, 0, 0, 0, 0, 0] };
/// for _ in 0..4 {
///     assert!(debouncer.feed(closed).is_none());
/// }
/// assert_eq!(debouncer.feed(closed).pressed.keys().collect::<Vec<_>>(), [0]);
/// ```
pub mod debounce {
    pub use crate::parts::debounce::{Debouncer, Edges, Keys, Scan};
}

/// Control transfers by themselves: endpoint 0 of a device that has the keyboard's requests.
///
/// ```
/// use wuzhikar::Protocol;
/// use wuzhikar::control_ep::{ControlEp, DeviceView, Effect, EpAnswer, OutStep, Verdict};
///
/// let view = DeviceView {
///     protocol: Protocol::Report,
///     idle_one: 0,
///     idle_two: 0,
///     leds: 0,
///     feature: [3, 0, 0, 0, 4, 0],
///     bitmap: [1; 23],
///     consumer: [2; 9],
///     boot: [0; 8],
/// };
/// let mut endpoint = ControlEp::new();
/// // SET_REPORT of the LEDs.
/// endpoint.setup([0x21, 0x09, 1, 2, 0, 0, 2, 0], &view);
/// assert_eq!(endpoint.out(&[1, 0b11]), OutStep::Leds(0b11));
/// assert!(matches!(endpoint.in_packet(), (EpAnswer::Packet(_), Effect::Nothing)));
/// // SET_REPORT of a command: its status packet waits until the command is stored.
/// endpoint.setup([0x21, 0x09, 3, 3, 0, 0, 6, 0], &view);
/// assert_eq!(endpoint.out(&[3, 1, 0, 0, 5, 0]), OutStep::Offer([1, 0, 0, 5, 0]));
/// assert_eq!(endpoint.verdict(Verdict::Working), EpAnswer::Ack);
/// assert_eq!(endpoint.in_packet(), (EpAnswer::Nak, Effect::Nothing));
/// endpoint.settle();
/// assert!(matches!(endpoint.in_packet(), (EpAnswer::Packet(_), Effect::Nothing)));
/// ```
///
/// A device whose reports are made only when a host reads them implements [`DeviceReports`](control_ep::DeviceReports):
///
/// ```
/// use wuzhikar::Protocol;
/// use wuzhikar::control_ep::{ControlEp, DeviceReports, Effect, EpAnswer};
///
/// struct Device {
///     leds: u8,
/// }
///
/// impl DeviceReports for Device {
///     fn protocol(&self) -> Protocol {
///         Protocol::Report
///     }
///
///     fn leds(&self) -> u8 {
///         self.leds
///     }
///
///     // And so on.
/// #     fn idle_one(&self) -> u8 { 0 }
/// #     fn idle_two(&self) -> u8 { 0 }
/// #     fn feature(&self) -> [u8; 6] { [3, 0, 0, 0, 4, 0] }
/// #     fn bitmap(&self) -> [u32; 6] { [1, 0, 0, 0, 0, 0] }
/// #     fn consumer(&self) -> [u32; 6] { [2, 0, 0, 0, 0, 0] }
/// #     fn boot(&self) -> [u32; 6] { [0; 6] }
/// }
///
/// let mut endpoint = ControlEp::new();
/// // GET_REPORT of the LEDs, output report 1.
/// endpoint.setup_from(&[0xa1, 0x01, 1, 2, 0, 0, 2, 0], &Device { leds: 0b10 });
/// assert_eq!(endpoint.in_packet(), (EpAnswer::Packet([1, 0b10].into_iter().collect()), Effect::Nothing));
/// ```
pub mod control_ep {
    pub use crate::parts::control_ep::{
        ControlEp, DeviceReports, DeviceView, Effect, EpAnswer, InAnswer, OutStep, Verdict, Why,
    };
}

// Exported from crates/control_ep/src/why.rt by bin/export-rust. Edit that file instead.
//! The reasons of a STALL.

use crate::parts::layers::KeymapError;

/// Why a packet is answered by a STALL.
///
/// ```rust
/// # #[cfg(feature = "sim")]
/// # fn main() -> Result<(), wuzhikar::PageCount> {
/// use wuzhikar::{EpAnswer, Keyboard, SimFlash, Why};
///
/// let flash = SimFlash::blank(2).unwrap();
/// let mut keyboard = Keyboard::on(&flash)?;
/// // A vendor request that no keyboard has.
/// keyboard.setup([0xc0, 1, 0, 0, 0, 0, 8, 0]);
/// let EpAnswer::Stall(why) = keyboard.in_packet() else { panic!("a stall") };
/// assert_eq!((why, why.number()), (Why::UnknownRequest, 1));
/// # Ok(())
/// # }
/// # #[cfg(not(feature = "sim"))]
/// # fn main() {}
/// ```
#[derive(Clone, Copy, Debug, PartialEq, Eq)]
pub enum Why {
    /// bmRequestType and bRequest name no request that is served.
    UnknownRequest,
    /// wIndex names another interface than 0.
    WrongInterface,
    /// wValue names no descriptor.
    UnknownDescriptor,
    /// wValue names no report or idle value, or the report has another Report ID.
    UnknownReport,
    /// wLength is not what the request takes.
    WrongLength,
    /// wValue names no protocol.
    BadProtocol,
    /// The feature report's operation is none.
    BadOperation,
    /// The feature report names no layer.
    BadLayer,
    /// The feature report names no key.
    BadKey,
    /// The feature report's code is none.
    BadCode,
    /// A page's header is not sound.
    Unsound,
    /// The flash takes no further change.
    Worn,
    /// The flash did not take the change.
    FlashFault,
    /// The report has fewer bytes than wLength.
    ShortData,
    /// The report has more bytes than wLength.
    LongData,
    /// The packet does not belong to this stage of the transfer.
    WrongStage,
}

impl Why {
    /// Returns the number of the reason, 1 to 16.
    pub fn number(self) -> u8 {
        self as u8 + 1
    }
}

impl From<KeymapError> for Why {
    fn from(error: KeymapError) -> Why {
        match error {
            KeymapError::BadOperation => Why::BadOperation,
            KeymapError::BadLayer => Why::BadLayer,
            KeymapError::BadKey => Why::BadKey,
            KeymapError::BadCode => Why::BadCode,
        }
    }
}

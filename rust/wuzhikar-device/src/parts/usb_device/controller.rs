// Exported from crates/usb_device/src/controller.rt by bin/export-rust. Edit that file instead.
//! What is asked of a controller that is handed packets beforehand: endpoint 0.

use arrayvec::ArrayVec;

/// What a controller has met since it was looked at before.
pub struct Waiting {
    /// The bus was reset. What stands beside it came behind it.
    pub reset: bool,
    /// The newest SETUP packet. What stands beside it, but for a reset, came before it.
    pub setup: Option<[u8; 8]>,
    /// The OUT packet that was acknowledged.
    pub out: Option<ArrayVec<u8, 8>>,
    /// Whether the host has taken the packet of endpoint 0, and acknowledged it.
    pub taken: bool,
}

/// What the next IN tokens are answered.
pub enum Input {
    Nak,
    Packet(ArrayVec<u8, 8>),
    Stall,
}

/// What the next OUT packets are answered.
#[derive(Clone, Copy, PartialEq, Eq)]
pub enum Output {
    Nak,
    Take,
    Stall,
}

/// A controller. Anything that its bus permits may happen before each call takes effect.
///
/// It acknowledges each SETUP packet, which empties both buffers of endpoint 0: IN and OUT are answered by NAK from then on. It
/// counts the data toggles: a packet is sent until the host acknowledges it, and one that the host sends again is acknowledged
/// and not reported (section 8.6.4). A reset of the bus empties the buffers, and drops what was not reported.
///
/// A controller in memory, on whose bus one SETUP packet has come:
///
/// ```rust
/// use wuzhikar_device::{Controller, Input, Output, Waiting};
///
/// struct InMemory {
///     setup: Option<[u8; 8]>,
///     input: Input,
///     address: u8,
/// }
///
/// impl Controller for InMemory {
///     fn waiting(&mut self) -> Waiting {
///         Waiting { reset: false, setup: self.setup.take(), out: None, taken: false }
///     }
///
///     fn input_0(&mut self, answer: Input) {
///         // An answer behind a SETUP packet that was not told is not for its transfer.
///         if self.setup.is_none() {
///             self.input = answer;
///         }
///     }
///
///     fn output_0(&mut self, _answer: Output) {}
///
///     fn set_address(&mut self, address: u8) {
///         self.address = address;
///     }
/// }
///
/// let mut usb = InMemory { setup: Some([0x80, 0x06, 0, 1, 0, 0, 18, 0]), input: Input::Nak, address: 0 };
/// usb.input_0(Input::Stall);
/// assert!(usb.waiting().setup.is_some() && matches!(usb.input, Input::Nak));
/// ```
pub trait Controller {
    /// All that was met since the last call, which is then forgotten.
    fn waiting(&mut self) -> Waiting;

    /// Sets what IN tokens are answered. Without effect where a SETUP packet or a reset has come that `waiting` did not give.
    fn input_0(&mut self, answer: Input);

    /// Sets what OUT packets are answered, likewise.
    fn output_0(&mut self, answer: Output);

    /// It answers to this address, 0 to 127, from now on. The host has the status packet of SET_ADDRESS, and has 2 ms to wait
    /// (section 9.2.6.3). The same may be reported again. Without effect where a reset has come that `waiting` did not give.
    fn set_address(&mut self, address: u8);
}

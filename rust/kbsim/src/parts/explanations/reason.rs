// Exported from crates/explanations/src/reason.rt by bin/export-rust. Edit that file instead.
//! The reasons of a STALL in words.

use crate::parts::kbsim::Why;

/// What a reason says.
pub(crate) fn meaning(why: Why) -> &'static str {
    match why {
        Why::UnknownRequest => "UnknownRequest: no such request is served",
        Why::WrongInterface => "WrongInterface: wIndex is not 0",
        Why::UnknownDescriptor => "UnknownDescriptor: wValue names no descriptor",
        Why::UnknownReport => "UnknownReport: no report or idle value has this number",
        Why::WrongLength => "WrongLength: wLength is not what the request takes",
        Why::BadProtocol => "BadProtocol: wValue is neither 0 nor 1",
        Why::BadOperation => "BadOperation: the feature report's operation is none of 0 to 3",
        Why::BadLayer => "BadLayer: the layer is over 3",
        Why::BadKey => "BadKey: the key is over 95",
        Why::BadCode => "BadCode: the code means nothing",
        Why::Unsound => "Unsound: slot 0 of some page is damaged, so nothing is written",
        Why::Worn => "Worn: there is no room, and no greater sequence number",
        Why::FlashFault => "FlashFault: the flash did not take what was written",
        Why::ShortData => "ShortData: the packet is shorter than wLength",
        Why::LongData => "LongData: the packet is longer than wLength",
        Why::WrongStage =>
            "WrongStage: the packet does not belong to this stage of the transfer, or there is none",
    }
}

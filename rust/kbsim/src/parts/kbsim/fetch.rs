// Exported from crates/kbsim/src/fetch.rt by bin/export-rust. Edit that file instead.
//! A whole transfer of the report descriptor.

use crate::parts::kbsim::outcome::Outcome;
use crate::parts::kbsim::run::{ask, is_ack, open, send};
use crate::parts::kbsim::sink::Sink;
use crate::parts::kbsim::spare::Spare;
use crate::parts::kbsim::{Answer, World};
use arrayvec::ArrayVec;
use crate::rattle::alloc::AllocError;

/// The SETUP packet that asks for 255 bytes of the report descriptor (HID 1.11 section 7.1.1).
const GET_REPORT_DESCRIPTOR: [u8; 8] = [0x81, 0x06, 0x00, 0x22, 0x00, 0x00, 0xFF, 0x00];

/// The most IN packets that 255 bytes take.
const MOST_PACKETS: u16 = 32;

/// Asks for the report descriptor, and closes the transfer once its data came. The outcome is the
/// number of bytes, or the first answer that is neither a packet of data nor, of the packet that
/// closes it, `Ack`.
pub(crate) fn fetch<S: Sink>(
    world: &mut World,
    answers: &mut crate::rattle::Vec<Answer>,
    spare: &mut Spare,
    sink: &mut S,
) -> Result<Outcome, AllocError> {
    let count = match gather(world, answers, spare, sink)? {
        Ok(count) => count,
        Err(answer) => return Ok(Outcome::Answered(answer)),
    };
    let reported = send(world, ArrayVec::new(), answers, spare, sink)?;
    if is_ack(&reported) {
        return Ok(Outcome::Fetched(count));
    }
    Ok(Outcome::Answered(reported))
}

/// Asks for the report descriptor, and takes IN packets until one is shorter than eight bytes. The
/// answer is the number of bytes that came, or the first answer that is no packet of data.
fn gather<S: Sink>(
    world: &mut World,
    answers: &mut crate::rattle::Vec<Answer>,
    spare: &mut Spare,
    sink: &mut S,
) -> Result<Result<u16, Answer>, AllocError> {
    // A SETUP packet is always acknowledged.
    open(world, GET_REPORT_DESCRIPTOR, answers, spare, sink)?;
    for full in 0..MOST_PACKETS {
        let answer = ask(world, answers, spare, sink)?;
        let Some(length) = packet_length(&answer) else {
            return Ok(Err(answer));
        };
        if length < 8 {
            return Ok(Ok(8 * full + length));
        }
    }
    // So many packets are never all full.
    Ok(Ok(8 * MOST_PACKETS))
}

/// How many bytes an answer has that is a packet of data.
fn packet_length(answer: &Answer) -> Option<u16> {
    match answer {
        Answer::Packet(bytes) => Some(bytes.len() as u16),
        _ => None,
    }
}

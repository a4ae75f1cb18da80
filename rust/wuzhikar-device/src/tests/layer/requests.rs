//! Each request and each refusal, in each state.

use super::*;

/// Each row: a SETUP packet, and what it is answered before the device is configured, and while it is: bytes, `ack` for
/// the empty packet, or `stall`.
pub const REQUESTS: &str = "
    80 00 00 00 00 00 02 00 | 00 00 | 00 00     GET_STATUS of the device
    80 00 00 00 00 00 01 00 | 00    | 00        one byte of it
    80 00 00 00 00 00 08 00 | 00 00 | 00 00     wLength is more
    80 00 00 00 00 00 00 00 | ack   | ack       wLength is 0
    80 00 01 00 00 00 02 00 | stall | stall     wValue
    80 00 00 00 01 00 02 00 | stall | stall     wIndex
    81 00 00 00 00 00 02 00 | stall | 00 00     GET_STATUS of interface 0
    81 00 00 00 01 00 02 00 | stall | stall     of interface 1
    81 00 00 00 00 01 02 00 | stall | stall     of interface 256
    81 00 01 00 00 00 02 00 | stall | stall     wValue
    82 00 00 00 00 00 02 00 | 00 00 | 00 00     GET_STATUS of endpoint 0
    82 00 00 00 80 00 02 00 | 00 00 | 00 00     in the other direction
    82 00 00 00 81 00 02 00 | stall | 00 00     of endpoint 1
    82 00 00 00 01 00 02 00 | stall | stall     of endpoint 1, from the host
    82 00 00 00 82 00 02 00 | stall | stall     of endpoint 2
    82 00 01 00 81 00 02 00 | stall | stall     wValue
    82 00 01 00 00 00 02 00 | stall | stall     wValue
    83 00 00 00 00 00 02 00 | stall | stall     GET_STATUS of something else
    02 01 00 00 81 00 00 00 | stall | ack       CLEAR_FEATURE of the halt of endpoint 1
    02 01 00 00 00 00 00 00 | stall | stall     of endpoint 0
    02 01 00 00 01 00 00 00 | stall | stall     of endpoint 1, from the host
    02 01 01 00 81 00 00 00 | stall | stall     of another feature
    02 01 00 00 81 00 01 00 | stall | stall     wLength
    02 03 00 00 81 00 00 00 | stall | ack       SET_FEATURE of the halt of endpoint 1
    02 03 00 00 00 00 00 00 | stall | stall     of endpoint 0
    02 03 00 00 82 00 00 00 | stall | stall     of endpoint 2
    02 03 01 00 81 00 00 00 | stall | stall     of another feature
    02 03 00 00 81 00 01 00 | stall | stall     wLength
    00 01 01 00 00 00 00 00 | stall | stall     CLEAR_FEATURE of remote wakeup
    00 03 01 00 00 00 00 00 | stall | stall     SET_FEATURE of remote wakeup
    00 03 02 00 00 01 00 00 | stall | stall     SET_FEATURE of a test mode
    01 01 00 00 00 00 00 00 | stall | stall     CLEAR_FEATURE of the interface
    01 03 00 00 00 00 00 00 | stall | stall     SET_FEATURE of the interface
    00 05 00 00 00 00 00 00 | ack   | stall     SET_ADDRESS 0
    00 05 01 00 00 00 00 00 | ack   | stall     SET_ADDRESS 1
    00 05 7f 00 00 00 00 00 | ack   | stall     SET_ADDRESS 127
    00 05 80 00 00 00 00 00 | stall | stall     SET_ADDRESS 128
    00 05 01 01 00 00 00 00 | stall | stall     SET_ADDRESS 257
    00 05 01 00 01 00 00 00 | stall | stall     wIndex
    00 05 01 00 00 00 01 00 | stall | stall     wLength
    00 07 00 01 00 00 00 00 | stall | stall     SET_DESCRIPTOR
    80 08 00 00 00 00 01 00 | 00    | 01        GET_CONFIGURATION
    80 08 00 00 00 00 02 00 | 00    | 01        wLength is more
    80 08 00 00 00 00 00 00 | ack   | ack       wLength is 0
    80 08 01 00 00 00 01 00 | stall | stall     wValue
    80 08 00 00 01 00 01 00 | stall | stall     wIndex
    00 09 00 00 00 00 00 00 | ack   | ack       SET_CONFIGURATION 0
    00 09 01 00 00 00 00 00 | ack   | ack       SET_CONFIGURATION 1
    00 09 02 00 00 00 00 00 | stall | stall     SET_CONFIGURATION 2
    00 09 01 01 00 00 00 00 | stall | stall     SET_CONFIGURATION 257
    00 09 01 00 01 00 00 00 | stall | stall     wIndex
    00 09 01 00 00 00 01 00 | stall | stall     wLength
    81 0a 00 00 00 00 01 00 | stall | 00        GET_INTERFACE 0
    81 0a 00 00 01 00 01 00 | stall | stall     GET_INTERFACE 1
    81 0a 01 00 00 00 01 00 | stall | stall     wValue
    01 0b 00 00 00 00 00 00 | stall | ack       SET_INTERFACE 0, alternate setting 0
    01 0b 01 00 00 00 00 00 | stall | stall     alternate setting 1
    01 0b 00 00 01 00 00 00 | stall | stall     SET_INTERFACE 1
    01 0b 00 00 00 00 01 00 | stall | stall     wLength
    82 0c 00 00 81 00 02 00 | stall | stall     SYNCH_FRAME
    80 06 01 01 00 00 12 00 | stall | stall     GET_DESCRIPTOR of device 1
    80 06 01 02 00 00 22 00 | stall | stall     of configuration descriptor 1
    80 06 00 06 00 00 0a 00 | stall | stall     of the device qualifier
    80 06 00 03 00 00 ff 00 | 04 03 09 04 | 04 03 09 04     of the languages
    80 06 00 03 09 04 ff 00 | 04 03 09 04 | 04 03 09 04     with a wIndex
    80 06 03 03 09 04 ff 00 | 04 03 31 00 | 04 03 31 00     of the serial number
    80 06 03 03 00 00 ff 00 | stall | stall     without a language
    80 06 03 03 07 04 ff 00 | stall | stall     in German
    80 06 04 03 09 04 ff 00 | stall | stall     of string 4
    80 06 ee 03 09 04 ff 00 | stall | stall     of string 238
    81 06 03 03 09 04 ff 00 | stall | stall     of a string of the interface
";

/// The answer of a device to a request, as a row says it.
fn answer(mut device: Device, setup: [u8; 8]) -> String {
    device.setup(setup);
    match device.layer.in_packet(&mut device.board).0 {
        EpAnswer::Packet(packet) if packet.is_empty() => "ack".into(),
        EpAnswer::Packet(packet) => packet.iter().map(|byte| format!("{byte:02x}")).collect::<Vec<_>>().join(" "),
        EpAnswer::Stall => "stall".into(),
        other => panic!("{other:?}"),
    }
}

#[test]
fn each_request_is_answered_by_the_state() {
    for row in REQUESTS.lines().filter(|row| !row.trim().is_empty()) {
        let [setup, before, after] = row.split('|').collect::<Vec<_>>()[..] else { panic!("{row}") };
        let setup: [u8; 8] = bytes(setup).try_into().unwrap();
        // What follows the last answer says what the row is.
        let after = after.split("  ").next().unwrap().trim();
        assert_eq!(answer(Device::new(), setup), before.trim(), "default state: {row}");
        assert_eq!(answer(Device::addressed(), setup), before.trim(), "address state: {row}");
        assert_eq!(answer(Device::configured(), setup), after, "configured: {row}");
        if setup != GET_HALT {
            assert_eq!(answer(Device::halted(), setup), after, "halted: {row}");
        }
    }
}

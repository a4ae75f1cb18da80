//! The keyboard's descriptors, its endpoints, and the lengths of its packets and reports.
//!
//! The descriptors are those of the proved source. Their names and the numbers are by hand: tests compare each number with
//! the descriptor that it stands in.

pub use crate::parts::descriptor_build::CONFIGURATION as CONFIGURATION_DESCRIPTOR;
pub use crate::parts::descriptor_build::DEVICE as DEVICE_DESCRIPTOR;
pub use crate::parts::descriptor_build::HID as HID_DESCRIPTOR;
pub use crate::parts::descriptor_build::SERVED_REPORT as REPORT_DESCRIPTOR;

/// The most bytes of a packet of endpoint 0 (bMaxPacketSize0, USB 2.0 section 9.6.1).
pub const ENDPOINT_0_PACKET: usize = 8;

/// bConfigurationValue of the one configuration (USB 2.0 section 9.6.3).
pub const CONFIGURATION: u8 = 1;

/// bInterfaceNumber of the one interface (USB 2.0 section 9.6.5).
pub const INTERFACE: u8 = 0;

/// bEndpointAddress of endpoint 1, to the host (USB 2.0 section 9.6.6).
pub const ENDPOINT_1: u8 = 0x81;

/// The most bytes of a packet of endpoint 1 by the keyboard's own descriptor (wMaxPacketSize).
pub const ENDPOINT_1_PACKET: usize = 32;

/// The bytes of the boot keyboard's input report (HID 1.11 appendix B.1).
pub const BOOT_REPORT_LEN: usize = 8;

/// The bytes of the input report of keys, its Report ID 1 counted.
pub const KEYS_REPORT_LEN: usize = 23;

/// The bytes of the input report of consumer usages, its Report ID 2 counted.
pub const CONSUMER_REPORT_LEN: usize = 9;

/// The bytes of the feature report that carries a command, its Report ID 3 counted.
pub const FEATURE_REPORT_LEN: usize = 6;

#[cfg(test)]
mod tests {
    use super::*;
    use crate::Scan;
    use crate::{EpAnswer, Keyboard};
    use wuzhikar_log::SimFlash;

    #[test]
    fn the_numbers_stand_in_the_descriptors() {
        assert_eq!(usize::from(DEVICE_DESCRIPTOR[7]), ENDPOINT_0_PACKET);
        let [configuration, interface] = [5, 11].map(|at| CONFIGURATION_DESCRIPTOR[at]);
        assert_eq!([configuration, interface], [CONFIGURATION, INTERFACE]);
        assert_eq!(CONFIGURATION_DESCRIPTOR[18..27], HID_DESCRIPTOR);
        assert_eq!(CONFIGURATION_DESCRIPTOR[29], ENDPOINT_1);
        assert_eq!(usize::from(CONFIGURATION_DESCRIPTOR[31]), ENDPOINT_1_PACKET);
        assert_eq!(usize::from(HID_DESCRIPTOR[7]), REPORT_DESCRIPTOR.len());
    }

    /// The bytes that a read of so many gives.
    fn read(keyboard: &mut Keyboard, setup: [u8; 8]) -> usize {
        keyboard.setup(setup);
        let mut count = 0;
        while let EpAnswer::Packet(packet) = keyboard.in_packet() {
            count += packet.len();
        }
        count
    }

    #[test]
    fn the_lengths_are_those_of_the_reports() {
        let mut keyboard = Keyboard::on(&SimFlash::blank(2).expect("memory")).expect("2 pages");
        assert_eq!(read(&mut keyboard, [0xa1, 1, 1, 1, 0, 0, 255, 0]), KEYS_REPORT_LEN);
        assert_eq!(read(&mut keyboard, [0xa1, 1, 2, 1, 0, 0, 255, 0]), CONSUMER_REPORT_LEN);
        assert_eq!(read(&mut keyboard, [0xa1, 1, 3, 3, 0, 0, 255, 0]), FEATURE_REPORT_LEN);
        (0..5).for_each(|_| keyboard.scan(Scan { rows: [1, 0, 0, 0, 0, 0] }));
        assert_eq!(keyboard.poll().map(|report| report.len()), Some(KEYS_REPORT_LEN));
        keyboard.setup([0x21, 0x0b, 0, 0, 0, 0, 0, 0]);
        assert_eq!(keyboard.in_packet(), EpAnswer::Packet(Default::default()));
        assert_eq!(read(&mut keyboard, [0xa1, 1, 0, 1, 0, 0, 255, 0]), BOOT_REPORT_LEN);
    }
}

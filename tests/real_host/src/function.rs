// SPDX-License-Identifier: MIT OR Apache-2.0
//! FunctionFS (Linux, Documentation/usb/functionfs.rst): a device of this Linux, whose kernel keeps endpoint 0 and hands over whole
//! control transfers.
//!
//! A write without data is acknowledged when this says so. One with data may be acknowledged by the controller as soon as the data
//! are read: nothing then tells the host what the keyboard made of them.

use crate::on_bus::{Ended, OnBus, Polled};
use std::fs::{File, OpenOptions};
use std::io::{Error, ErrorKind, Read, Result, Write};
use std::os::unix::fs::OpenOptionsExt;
use std::path::Path;
use std::sync::Arc;
use std::sync::atomic::{AtomicBool, Ordering};
use std::sync::mpsc::{Sender, channel};

/// A read of endpoint 0 doesn't wait for an event (O_NONBLOCK).
const AT_ONCE: i32 = 0o4000;

/// The marks of descriptors and of strings; these are descriptors of full speed, with the host's numbers of endpoints.
const DESCRIPTORS: u32 = 3;
const STRINGS: u32 = 2;
const FULL_SPEED: u32 = 1;
const HOSTS_NUMBERS: u32 = 16;

/// What an event says: bytes 0 to 7 of its twelve are a SETUP packet, byte 8 its kind.
const ENABLED: u8 = 2;
const DISABLED: u8 = 3;
const SETUP: u8 = 4;

/// The host has taken a request back by another (EIDRM); one was stalled (EL2HLT).
const TAKEN_BACK: i32 = 43;
const STALLED: i32 = 51;

/// The function on its files.
pub struct Wire<C> {
    control: C,
    reports: Sender<Vec<u8>>,
    /// Whether a report was given that the host has not taken.
    has_report: Arc<AtomicBool>,
    is_enabled: bool,
}

/// What the kernel is told of the function: an interface with its endpoint, as the configuration has them, and no strings.
fn told(interface: &[u8]) -> [Vec<u8>; 2] {
    let words = |words: &[u32]| words.iter().flat_map(|word| word.to_le_bytes()).collect::<Vec<u8>>();
    let descriptors = words(&[DESCRIPTORS, 16 + interface.len() as u32, FULL_SPEED | HOSTS_NUMBERS, 3]);
    [[descriptors, interface.to_vec()].concat(), words(&[STRINGS, 16, 0, 0])]
}

impl Wire<File> {
    /// Makes the function of this configuration in the folder of FunctionFS, and hands its gadget to the first controller. A report
    /// waits in a thread until the host takes it.
    pub fn plug(folder: &Path, gadget: &Path, configuration: &[u8]) -> Result<Wire<File>> {
        let mut control = OpenOptions::new().read(true).write(true).custom_flags(AT_ONCE).open(folder.join("ep0"))?;
        for part in told(&configuration[9..]) {
            control.write_all(&part)?;
        }
        let mut endpoint = OpenOptions::new().write(true).open(folder.join("ep81"))?;
        let controller =
            std::fs::read_dir("/sys/class/udc")?.next().ok_or(Error::other("no controller of devices is there"))??;
        std::fs::write(gadget.join("UDC"), controller.file_name().as_encoded_bytes())?;
        let (reports, given) = channel::<Vec<u8>>();
        let has_report = Arc::new(AtomicBool::new(false));
        let taken = has_report.clone();
        std::thread::spawn(move || {
            for report in given {
                // (Without a host the report is lost, as on a bus that is reset.)
                let _ = endpoint.write_all(&report);
                taken.store(false, Ordering::Release);
            }
        });
        Ok(Wire { control, reports, has_report, is_enabled: false })
    }
}

impl<C: Read + Write> Wire<C> {
    /// The next event, where there is one.
    fn event(&mut self) -> Result<Option<[u8; 12]>> {
        let mut event = [0; 12];
        match self.control.read(&mut event) {
            Ok(12) => Ok(Some(event)),
            Ok(count) => Err(Error::new(ErrorKind::InvalidData, format!("an event of {count} bytes"))),
            Err(error) if error.kind() == ErrorKind::WouldBlock => Ok(None),
            Err(error) if error.raw_os_error() == Some(TAKEN_BACK) => Ok(None),
            Err(error) => Err(error),
        }
    }

    /// Serves what the host has asked, and gives the report that is due. Whether the host has all reports.
    pub fn poll(&mut self, device: &mut dyn OnBus) -> Result<bool> {
        while let Some([setup @ .., kind, _, _, _]) = self.event()? {
            match kind {
                ENABLED => self.is_enabled = true,
                // (A bus reset, another configuration, the end of the host.)
                DISABLED => {
                    self.is_enabled = false;
                    device.bus_reset();
                }
                SETUP => self.serve(setup, device)?,
                _ => {}
            }
        }
        if !self.is_enabled || self.has_report.load(Ordering::Acquire) {
            return Ok(false);
        }
        if let Polled::Packet(report) = device.poll() {
            self.has_report.store(true, Ordering::Release);
            return self.reports.send(report).map(|()| false).map_err(Error::other);
        }
        Ok(true)
    }

    /// Serves a request. A read or a write in the other direction stalls it.
    fn serve(&mut self, setup: [u8; 8], device: &mut dyn OnBus) -> Result<()> {
        let reads = setup[0] & 0x80 != 0;
        let length = usize::from(u16::from_le_bytes([setup[6], setup[7]]));
        let served = if !reads && length > 0 {
            let mut data = vec![0; length];
            self.control.read(&mut data).map(|count| {
                // No stall is left: the controller may have sent the status packet.
                let _ = device.control(setup, &data[..count]);
            })
        } else {
            match (device.control(setup, &[]), reads) {
                (Ended::Data(bytes), true) => self.control.write(&bytes).map(drop),
                (Ended::Data(_), false) => self.control.read(&mut []).map(drop),
                (_, true) => self.control.read(&mut [0]).map(drop),
                (_, false) => self.control.write(&[0]).map(drop),
            }
        };
        match served {
            Err(error) if [Some(TAKEN_BACK), Some(STALLED)].contains(&error.raw_os_error()) => Ok(()),
            served => served,
        }
    }
}

#[cfg(test)]
mod tests {
    use super::*;
    use crate::class::Class;
    use crate::device::PRODUCT;
    use crate::file_flash::tests::{Kept, power_goes};
    use crate::on_bus::scan_of;
    use std::collections::VecDeque;
    use std::sync::mpsc::Receiver;

    const SET: [u8; 8] = [0x21, 9, 3, 3, 0, 0, 6, 0];
    const GET: [u8; 8] = [0xa1, 1, 3, 3, 0, 0, 6, 0];
    const BOOT: [u8; 8] = [0x21, 11, 0, 0, 0, 0, 0, 0];
    const PROTOCOL: [u8; 8] = [0xa1, 3, 0, 0, 0, 0, 1, 0];

    #[derive(Debug, PartialEq)]
    enum Told {
        Taken(usize),
        Sent(Vec<u8>),
        Stalled,
    }

    /// The kernel's endpoint 0, as Linux says it: what comes, a request with its data, and what the function did with each.
    #[derive(Default)]
    struct Played {
        comes: VecDeque<([u8; 8], u8, Vec<u8>)>,
        asked: Option<([u8; 8], Vec<u8>)>,
        taken_back: bool,
        told: Vec<Told>,
    }

    impl Played {
        fn end(&mut self, told: Told) -> Result<usize> {
            if std::mem::take(&mut self.taken_back) {
                return Err(Error::from_raw_os_error(TAKEN_BACK));
            }
            let done = match &told {
                Told::Taken(count) => Ok(*count),
                Told::Sent(bytes) => Ok(bytes.len()),
                Told::Stalled => Err(Error::from_raw_os_error(STALLED)),
            };
            self.told.push(told);
            done
        }
    }

    impl Read for Played {
        fn read(&mut self, bytes: &mut [u8]) -> Result<usize> {
            match self.asked.take() {
                Some((setup, _)) if setup[0] & 0x80 != 0 => self.end(Told::Stalled),
                Some((_, data)) => {
                    bytes[..data.len()].copy_from_slice(&data);
                    self.end(Told::Taken(data.len()))
                }
                None => {
                    let (setup, kind, data) = self.comes.pop_front().ok_or(ErrorKind::WouldBlock)?;
                    bytes.copy_from_slice(&[&setup[..], &[kind, 0, 0, 0]].concat());
                    self.asked = (kind == super::SETUP).then_some((setup, data));
                    Ok(12)
                }
            }
        }
    }

    impl Write for Played {
        fn write(&mut self, bytes: &[u8]) -> Result<usize> {
            match self.asked.take() {
                Some((setup, _)) if setup[0] & 0x80 != 0 => self.end(Told::Sent(bytes.to_vec())),
                Some(_) => self.end(Told::Stalled),
                None => panic!("nothing was asked"),
            }
        }

        fn flush(&mut self) -> Result<()> {
            Ok(())
        }
    }

    /// A function that is enabled, with what its endpoint 1 is given.
    struct Enabled {
        wire: Wire<Played>,
        class: Class,
        given: Receiver<Vec<u8>>,
    }

    impl Enabled {
        fn on(kept: &Kept) -> Enabled {
            let (reports, given) = channel();
            let wire = Wire { control: Played::default(), reports, has_report: Arc::default(), is_enabled: false };
            let mut enabled = Enabled { wire, class: Class::new(kept.flash(power_goes), &PRODUCT).unwrap(), given };
            enabled.meets(ENABLED);
            enabled
        }

        fn meets(&mut self, kind: u8) {
            self.wire.control.comes.push_back(([0; 8], kind, Vec::new()));
            self.wire.poll(&mut self.class).unwrap();
        }

        /// What became of a request.
        fn asked(&mut self, setup: [u8; 8], data: &[u8]) -> Vec<Told> {
            self.wire.control.comes.push_back((setup, super::SETUP, data.to_vec()));
            self.wire.poll(&mut self.class).unwrap();
            std::mem::take(&mut self.wire.control.told)
        }

        /// The code that is read back.
        fn code(&mut self, layer: u8, key: u8) -> [u8; 2] {
            assert_eq!(self.asked(SET, &[3, 0, layer, key, 0, 0]), [Told::Taken(6)]);
            let told = self.asked(GET, &[]);
            let [Told::Sent(report)] = &told[..] else { panic!("{told:?}") };
            assert_eq!(report[..4], [3, 0, layer, key]);
            [report[4], report[5]]
        }

        fn scans(&mut self, keys: &[u8]) -> bool {
            (0..5).for_each(|_| self.class.millisecond(scan_of(keys)));
            self.wire.poll(&mut self.class).unwrap()
        }
    }

    #[test]
    fn what_is_read_back_is_in_the_file_and_what_is_refused_is_not() {
        let kept = Kept::blank("read_back");
        let mut host = Enabled::on(&kept);
        assert_eq!(host.asked(SET, &[3, 1, 1, 95, 0x1d, 0]), [Told::Taken(6)]);
        assert_eq!(host.code(1, 95), [0x1d, 0]);
        // Layer 4, a byte too few: both are acknowledged.
        assert_eq!(host.asked(SET, &[3, 1, 4, 95, 5, 0]), [Told::Taken(6)]);
        assert_eq!(host.asked(SET, &[3, 1, 1, 95, 5]), [Told::Taken(5)]);
        let mut host = Enabled::on(&kept);
        assert_eq!(host.code(1, 95), [0x1d, 0]);
    }

    #[test]
    fn requests_without_data_and_reads_have_the_keyboards_answer() {
        let kept = Kept::blank("answers");
        let mut host = Enabled::on(&kept);
        assert_eq!(host.asked(PROTOCOL, &[]), [Told::Sent(vec![1])]);
        assert_eq!(host.asked(BOOT, &[]), [Told::Taken(0)]);
        assert_eq!(host.asked([0x21, 11, 2, 0, 0, 0, 0, 0], &[]), [Told::Stalled]);
        assert_eq!(host.asked([0xa1, 1, 5, 3, 0, 0, 6, 0], &[]), [Told::Stalled]);
        assert_eq!(host.asked([0xa1, 3, 0, 0, 0, 0, 0, 0], &[]), [Told::Stalled]);
        // The host takes one back; the next is served.
        host.wire.control.taken_back = true;
        assert_eq!(host.asked(PROTOCOL, &[]), []);
        assert_eq!(host.asked(PROTOCOL, &[]), [Told::Sent(vec![0])]);
        host.meets(DISABLED);
        assert_eq!(host.asked(PROTOCOL, &[]), [Told::Sent(vec![1])]);
    }

    #[test]
    fn a_report_waits_for_the_one_before_and_for_a_host() {
        let kept = Kept::blank("reports");
        let mut host = Enabled::on(&kept);
        assert!(!host.scans(&[0]));
        assert!(!host.scans(&[]));
        let report = host.given.try_recv().unwrap();
        assert_eq!((report.len(), &report[..3]), (23, &[1, 0, 1][..]));
        assert!(host.given.try_recv().is_err());
        host.wire.has_report.store(false, Ordering::Release);
        assert!(!host.wire.poll(&mut host.class).unwrap());
        assert_eq!(host.given.try_recv().unwrap()[..3], [1, 0, 0]);
        host.wire.has_report.store(false, Ordering::Release);
        assert!(host.wire.poll(&mut host.class).unwrap());
        host.meets(DISABLED);
        assert!(!host.scans(&[1]));
        assert!(host.given.try_recv().is_err());
    }

    #[test]
    fn the_kernel_is_told_an_interface_of_25_bytes() {
        let [descriptors, strings] = told(&PRODUCT.descriptors().configuration[9..]);
        assert_eq!(descriptors[..18], [3, 0, 0, 0, 41, 0, 0, 0, 17, 0, 0, 0, 3, 0, 0, 0, 9, 4]);
        assert_eq!((descriptors.len(), descriptors[36]), (41, 0x81));
        assert_eq!(strings, [2, 0, 0, 0, 16, 0, 0, 0, 0, 0, 0, 0, 0, 0, 0, 0]);
    }
}

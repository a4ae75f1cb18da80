// Exported from crates/keyboard/src/keyboard.rt by bin/export-rust. Edit that file instead.
//! The keyboard and its calls.

use crate::parts::keyboard::feature::{command_of_bytes, verdict_of};
use crate::parts::keyboard::room::Room;
use crate::parts::keyboard::shown::Shown;
use crate::parts::control_ep::{ControlEp, Effect, EpAnswer, InAnswer, OutAnswer, Received, Verdict, Why};
use wuzhikar_log::parts::flash_model::NorFlash;
use crate::parts::key_reports::{KeyReports, Protocol, Report, Scan};
use crate::parts::keymap_store::{StoreOf, Work};
use crate::parts::layers::{Command, Defaults, KeyNo, KeymapOf, LayerNo, Standard, Usages};
use crate::rattle::alloc::{AllocError, Global};

/// A keyboard of 96 keys on a NOR flash that keeps its keymap, with these defaults.
///
/// ```rust
/// # #[cfg(feature = "sim")]
/// # fn main() -> Result<(), wuzhikar::PageCount> {
/// use wuzhikar::{EpAnswer, Keyboard, SimFlash, Work};
///
/// let mut flash = SimFlash::blank(2).unwrap();
/// let mut keyboard = Keyboard::on(&flash)?;
/// // SET_REPORT of the feature report: operation 1 writes code 0029h (Escape) on layer 0, key 5.
/// keyboard.setup([0x21, 0x09, 3, 3, 0, 0, 6, 0]);
/// assert_eq!(keyboard.out(&[3, 1, 0, 5, 0x29, 0]), EpAnswer::Ack);
/// // The status packet waits until the flash has the assignment.
/// assert_eq!(keyboard.in_packet(), EpAnswer::Nak);
/// while keyboard.work(&mut flash) == Work::Working {}
/// assert!(matches!(keyboard.in_packet(), EpAnswer::Packet(packet) if packet.is_empty()));
/// # Ok(())
/// # }
/// # #[cfg(not(feature = "sim"))]
/// # fn main() {}
/// ```
#[derive(Debug)]
pub struct KeyboardOf<D: Defaults> {
    ep: ControlEp,
    keys: KeyReports,
    store: StoreOf<D>,
    protocol: Protocol,
    leds: u8,
    /// The entry that GET_REPORT of the feature report shows.
    layer: LayerNo,
    key: KeyNo,
}

impl<D: Defaults> KeyboardOf<D> {
    /// Zeros, where memory waits for a keyboard to start there.
    pub(crate) const UNSTARTED: Self = KeyboardOf { ep: ControlEp::UNSTARTED, keys: KeyReports::UNSTARTED, store: StoreOf::UNSTARTED, protocol: Protocol::UNSTARTED, leds: 0, layer: LayerNo::UNSTARTED, key: KeyNo::UNSTARTED };
}

/// A keyboard with the standard defaults.
pub type Keyboard = KeyboardOf<Standard>;

impl<D: Defaults> KeyboardOf<D> {
    /// Starts a keyboard on a flash, whose keymap it reads: report protocol, no LED on, every key up,
    /// nothing sent, entry (0, 0) selected, and no transfer. `AllocError` where there was no room for the
    /// reports that wait (`Room::take`); no other call takes memory.
    pub(crate) fn start<F: NorFlash>(alloc: Global, flash: &F) -> Result<KeyboardOf<D>, AllocError> {
        let room = Room::take(alloc)?;
        Ok(KeyboardOf::start_in(room, flash))
    }

    /// Starts a keyboard as `start` does, in room that was taken before. Takes no memory, and nothing
    /// refuses it.
    pub(crate) fn start_in<F: NorFlash>(room: Room, flash: &F) -> KeyboardOf<D> {
        KeyboardOf {
            ep: ControlEp::new(),
            keys: room.into_keys(),
            store: StoreOf::mount(flash),
            protocol: Protocol::Report,
            leds: 0,
            layer: LayerNo::known(0),
            key: KeyNo::known(0),
        }
    }

    /// Starts the keyboard over on this flash, as after a power loss: it is then what `start` gives. Takes
    /// no memory.
    pub fn restart<F: NorFlash>(&mut self, flash: &F) {
        self.ep = ControlEp::new();
        self.keys.restart();
        self.store.remount(flash);
        self.protocol = Protocol::Report;
        self.leds = 0;
        self.layer = LayerNo::known(0);
        self.key = KeyNo::known(0);
    }

    /// Takes a scan of the matrix, one millisecond after the last. The debounced releases come first,
    /// then the presses, each by rising key and with the keymap of this moment; then the reports that
    /// this changes wait for a poll.
    pub fn scan(&mut self, scan: Scan) {
        self.keys.scan(scan, self.store.keymap(), self.protocol);
    }

    /// Takes a SETUP packet of endpoint 0, which is always acknowledged and ends the transfer under
    /// way (USB 2.0 sections 8.5.3 and 9.3, HID 1.11 section 7). What is read is what the keyboard has
    /// now; the flash work goes on.
    pub fn setup(&mut self, packet: [u8; 8]) {
        self.setup_at(&packet);
    }

    /// Takes a SETUP packet as `setup` does, where it lies.
    pub fn setup_at(&mut self, packet: &[u8; 8]) {
        let shown = Shown {
            keys: &self.keys,
            store: &self.store,
            protocol: self.protocol,
            leds: self.leds,
            layer: self.layer,
            key: self.key,
        };
        self.ep.setup_from(packet, &shown);
    }

    /// Takes an OUT packet of endpoint 0 (USB 2.0 section 8.5.3): the closing packet of a read, an
    /// output report, whose LEDs are then on, or a feature report, which selects an entry for reading
    /// or brings a command. A command that is acknowledged works until `work` answers Settled or
    /// Failed, or is done where it changes nothing. `Nak` is for a feature report while a command
    /// works. Each other packet is answered by a `Stall`, and so is each further one of the transfer.
    pub fn out(&mut self, packet: &[u8]) -> EpAnswer {
        self.answer_out(packet).answer()
    }

    /// Takes an IN packet of endpoint 0 (USB 2.0 section 8.5.3): the next packet of a read, the empty
    /// packet of the status stage, `Nak` while the transfer's command works, or a `Stall`. SET_IDLE
    /// and SET_PROTOCOL act with the empty packet; SET_PROTOCOL, whatever it chooses, also forgets
    /// what was sent and drops what waits.
    pub fn in_packet(&mut self) -> EpAnswer {
        let mut packet = [0; 8];
        let answer = self.in_packet_into(&mut packet);
        answer.with(packet)
    }

    /// Takes an IN packet as `in_packet` does, and writes its bytes into `packet`, from the start. The
    /// answer says how many; what stands after them, and in a `packet` that no data packet answers, means
    /// nothing.
    pub fn in_packet_into(&mut self, packet: &mut [u8; 8]) -> InAnswer {
        let (answer, effect) = self.ep.in_packet_into(packet);
        match effect {
            Effect::Nothing => {}
            Effect::Idle(id, duration) => self.keys.set_idle(id, duration),
            Effect::SetProtocol(protocol) => {
                self.protocol = protocol;
                self.keys.forget_sent();
            }
        }
        answer
    }

    /// Answers a poll of endpoint 1 with a report of 8, 9 or 23 bytes, or with `None`, which is NAK: the
    /// report that has waited longest. Where none waits, the report of the protocol whose bytes are not
    /// those last sent, else one whose idle time has passed since then, or `None`. It then counts as sent.
    pub fn poll(&mut self) -> Option<Report> {
        self.keys.poll(self.protocol)
    }

    /// Answers a poll of endpoint 1 as `poll` does, and writes the report into `report`, from the start. The
    /// answer says how many bytes it has; what stands after them, and in a `report` that no poll answers,
    /// means nothing.
    pub fn poll_into(&mut self, report: &mut [u8; 23]) -> Option<u8> {
        self.keys.poll_into(self.protocol, report)
    }

    /// **Needs** the flash that the keyboard last started or restarted on, as the keyboard left it. Nothing checks it: [`FlashKeyboard`](crate::FlashKeyboard) holds both.
    ///
    /// Makes the one flash operation that the command at work needs next, or none where no command works.
    /// A command is settled or fails by the 387th step. `Settled` lets the status stage of its transfer
    /// follow, and `Failed` stalls it, if the transfer still waits. The flash has to be the one that the
    /// keyboard started on.
    pub fn work<F: NorFlash>(&mut self, flash: &mut F) -> Work {
        let work = self.store.work(flash);
        match work {
            Work::Settled => self.ep.settle(),
            Work::Failed => self.ep.fail(),
            Work::Idle | Work::Working => {}
        }
        work
    }

    /// Takes a bus reset (USB 2.0 section 7.1.7.5): the transfer ends, report protocol is in force, no LED
    /// is on, nothing counts as sent, nothing waits, and the idle values are those of the start. The
    /// keymap, the flash work, the keys and the selected entry stay.
    pub fn bus_reset(&mut self) {
        self.ep.reset();
        self.keys.bus_reset();
        self.protocol = Protocol::Report;
        self.leds = 0;
    }

    /// Returns the keymap: that of the flash's image.
    pub fn keymap(&self) -> &KeymapOf<D> {
        self.store.keymap()
    }

    /// Returns whether no page of the flash has a header yet: nothing was stored on it since it was
    /// erased. A firmware that has settings of its own to store does so where this holds at its start.
    pub fn is_first_start(&self) -> bool {
        self.store.is_first_start()
    }

    /// Returns the usages that the codes of the held keys name.
    pub fn usages(&self) -> Usages {
        self.keys.usages()
    }

    /// Returns the protocol in force (HID 1.11 section 7.2.5).
    pub fn protocol(&self) -> Protocol {
        self.protocol
    }

    /// Returns the LEDs: usages 01h to 05h of page 08h in bits 0 to 4.
    pub fn leds(&self) -> u8 {
        self.leds
    }

    /// Takes an OUT packet and answers it. It stands apart since the folder of a proof of `out` would have
    /// the name of what the toolchain makes.
    fn answer_out(&mut self, packet: &[u8]) -> OutAnswer {
        match self.ep.received(packet) {
            Received::Answered(answer) => answer,
            Received::Leds(leds) => {
                self.leds = leds;
                OutAnswer::Ack
            }
            Received::Offer(bytes) => {
                let verdict = self.check_command(bytes);
                self.ep.judged(verdict)
            }
        }
    }

    /// The verdict on a feature report, by its bytes after the ID.
    fn check_command(&mut self, bytes: [u8; 5]) -> Verdict {
        if self.store.busy() {
            return Verdict::Busy;
        }
        let [op, layer, key, _, _] = bytes;
        if op == 0 {
            return self.select(layer, key);
        }
        match command_of_bytes(bytes) {
            Ok(command) => self.submit(&command),
            Err(error) => Verdict::Refused(Why::from(error)),
        }
    }

    /// Selects an entry for reading.
    fn select(&mut self, layer: u8, key: u8) -> Verdict {
        let layer = match LayerNo::read(layer) {
            Ok(layer) => layer,
            Err(error) => return Verdict::Refused(Why::from(error)),
        };
        let key = match KeyNo::read(key) {
            Ok(key) => key,
            Err(error) => return Verdict::Refused(Why::from(error)),
        };
        self.layer = layer;
        self.key = key;
        Verdict::Done
    }

    /// Hands a command to the store while none works.
    fn submit(&mut self, command: &Command) -> Verdict {
        verdict_of(self.store.submit(*command))
    }
}

// SPDX-License-Identifier: MIT OR Apache-2.0

//! Sessions of a host, told and random.

use super::host::{Act, Numbers, SET_CONFIGURATION};
use super::line::{Counts, HALT, Wire, Wired};
use super::run::{Firmware, Run, SET_FEATURE, told, wired};
use super::{answers, races};

const CLEAR_HALT: [u8; 8] = [2, 1, 0, 0, 0x81, 0, 0, 0];

/// SET_PROTOCOL: 0 is the boot protocol, 1 the report protocol.
const fn set_protocol(number: u8) -> [u8; 8] {
    [0x21, 0x0b, number, 0, 0, 0, 0, 0]
}

/// Runs all tests of a firmware, and so many random histories (2,000 take some seconds). Where one finds a fault it panics, and
/// says the seed and the last twenty tokens.
pub fn check<F: Firmware>(count: u64) {
    answers::<F>();
    races::<F>();
    session::<F>();
    suspends::<F>();
    histories::<F>(count);
}

/// A host enumerates the keyboard, asks for what is refused, remaps a key and hears it, halts endpoint 1, sets the boot
/// protocol, sleeps, is woken where the product may do that, and resets the bus. The registers stay, to be looked at.
pub fn session<F: Firmware>() -> &'static Wired<F::Registers> {
    let wire = wired::<F>(None);
    told(wire, || {
        let mut run = Run::<F>::new(wire);
        run.enumerates();
        run.is_refused();
        run.sets_a_key_and_hears_it();
        run.halts();
        run.changes_the_protocol();
        run.drops_releases();
        run.sleeps_and_wakes();
        run.is_reset();
    });
    wire
}

/// A suspend that comes at any access of a round is told, so that a key wakes the host where the product may do that.
pub fn suspends<F: Firmware>() {
    for at in 0.. {
        let wire = wired::<F>(None);
        if !told(wire, || Run::<F>::new(wire).is_suspended_at(at)) {
            assert!(at > 0, "a round looks at no register");
            return;
        }
    }
}

/// Random histories, so many: something happens on the bus at each access of the driver, and every fourth acknowledgement is
/// lost. Behind each the host knows what the keyboard would report.
///
/// All that a host does is met in them, so 50 are the least.
pub fn histories<F: Firmware>(count: u64) {
    let mut all = Counts::default();
    for seed in 0..count {
        let wire = wired::<F>(Some(seed));
        told(wire, || Run::<F>::new(wire).lives(&mut Numbers(seed)));
        let met = wire.borrow().line.counts;
        all.confirmed += met.confirmed;
        all.reports += met.reports;
        all.stalls += met.stalls;
        (0..3).for_each(|number| all.again[number] += met.again[number]);
        all.resets += met.resets;
        all.suspends += met.suspends;
        all.wakes += met.wakes;
    }
    let [first, second, third] = all.again;
    let counts = [all.confirmed, all.reports, all.stalls, first, second, third, all.resets, all.suspends];
    assert!(counts.iter().all(|met| *met as u64 > count / 20), "too little is met: {all:?}");
    assert_eq!(all.wakes as u64 > count / 20, F::product().identity().remote_wakeup, "the host is woken: {all:?}");
}

impl<F: Firmware> Run<F> {
    /// A write, a read and a request without data that the device does not serve, and a command that it refuses.
    fn is_refused(&mut self) {
        for (setup, data) in [
            ([0, 7, 0, 1, 0, 0, 18, 0], &[1; 8][..]),
            ([0x80, 6, 0, 6, 0, 0, 10, 0], &[]),
            ([0, 9, 7, 0, 0, 0, 0, 0], &[]),
            (SET_FEATURE, &[3, 9, 0, 0, 5, 0]),
        ] {
            assert_eq!(self.asks(setup, data), None, "{setup:02x?} {data:02x?} is not stalled");
        }
    }

    fn sets_a_key_and_hears_it(&mut self) {
        self.sets_a_key();
        for down in [true, false, true] {
            self.presses(down);
            self.polls();
            let report = self.known(1, 23).unwrap_or_default();
            assert_eq!(report.get(..3), Some(&[1, 0, 2 * u8::from(down)][..]), "the report of key 0, {down}: {report:02x?}");
        }
    }

    /// A halted endpoint 1 is stalled, and says what it missed after the halt.
    fn halts(&mut self) {
        self.transfer(HALT, &[]);
        self.presses(false);
        self.polls();
        assert_eq!(self.transfer([0x82, 0, 0, 0, 0x81, 0, 2, 0], &[]), [1, 0], "GET_STATUS of endpoint 1");
        self.transfer(CLEAR_HALT, &[]);
        self.polls();
        assert_eq!(self.known(1, 23).map(|report| report[2]), Some(0), "the release of key 0 behind a halt");
    }

    /// A report that waits is dropped with its protocol. With packets of 8 bytes no host does this.
    fn changes_the_protocol(&mut self) {
        if F::product().identity().packet_size.bytes() == 8 {
            return;
        }
        for (number, id, length) in [(0, 0, 8), (1, 1, 23)] {
            self.presses(number == 0);
            self.serve();
            let heard = self.wire.borrow().line.counts.reports;
            self.act(Act::Setup(set_protocol(number)));
            self.act(Act::Poll);
            // The host has the status packet before the device knows it.
            self.wire.borrow_mut().act(Act::In);
            self.wire.borrow_mut().act(Act::Poll);
            assert_eq!(self.wire.borrow().line.counts.reports, heard, "a report that waits is dropped with its protocol");
            self.ends();
            self.polls();
            let key = self.known(id, length).map_or(0, |report| report[2]);
            assert_eq!(key, if number == 0 { 5 } else { 0 }, "key 0 behind SET_PROTOCOL {number}");
        }
    }

    /// Releases of a key and of a consumer usage wait when the protocol is set, and are dropped. Then no key is touched, and none stays
    /// down. With packets of 8 bytes no host does this.
    fn drops_releases(&mut self) {
        if F::product().identity().packet_size.bytes() == 8 {
            return;
        }
        // Key 1 raises the volume.
        self.transfer(SET_FEATURE, &[3, 1, 0, 1, 0xe9, 0x40]);
        for protocols in [&[1][..], &[0, 1], &[0, 0, 1, 1]] {
            self.holds(3);
            self.polls();
            assert_eq!([self.is_down(1, 23), self.is_down(2, 9)], [true; 2], "a key and the volume");
            self.holds(0);
            self.serve();
            for number in protocols {
                self.transfer(set_protocol(*number), &[]);
            }
            self.polls();
            assert_eq!([self.is_down(1, 23), self.is_down(2, 9)], [false; 2], "a key and the volume behind {protocols:?}");
        }
        self.transfer(set_protocol(0), &[]);
        self.polls();
        assert!(!self.is_down(0, 8), "a key of the boot protocol, where this comes again");
        self.transfer(set_protocol(1), &[]);
        self.polls();
    }

    /// Whether the host knows a usage of this report.
    fn is_down(&self, id: u8, length: usize) -> bool {
        self.known(id, length).is_some_and(|report| report.iter().skip(usize::from(id > 0)).any(|byte| *byte != 0))
    }

    /// A key wakes the host once in a suspend, where it has enabled that.
    fn sleeps_and_wakes(&mut self) {
        let has = F::product().identity().remote_wakeup;
        self.presses(false);
        self.polls();
        for (number, (enables, resumes)) in [(true, false), (true, true), (false, false)].into_iter().enumerate() {
            if enables {
                self.enables_wakeup();
            } else if has {
                self.transfer([0, 1, 1, 0, 0, 0, 0, 0], &[]);
            }
            self.wire.borrow_mut().registers.suspend();
            self.serve();
            assert!(!self.wakes(), "woken without a key");
            if resumes {
                self.wire.borrow_mut().registers.resume();
                self.serve();
            }
            self.presses(number != 1);
            self.serve();
            assert_eq!(self.wakes(), has && enables && !resumes, "woken by a key, suspend {number}");
            self.serve();
            assert!(!self.wakes(), "woken twice");
            if !resumes {
                self.wire.borrow_mut().registers.resume();
            }
            self.polls();
            assert_eq!(
                self.known(1, 23).map(|report| report[2]),
                Some(2 * u8::from(number != 1)),
                "key 0 behind suspend {number}"
            );
        }
    }

    fn wakes(&mut self) -> bool {
        self.wire.borrow_mut().registers.wakes()
    }

    /// A reset takes the address and endpoint 1 away, and a host begins anew.
    fn is_reset(&mut self) {
        self.act(Act::Reset);
        assert_eq!(self.wire.borrow().registers.address(), 0, "the address behind a reset");
        self.polls();
        self.enumerates();
        self.polls();
        assert_eq!(self.known(1, 23).map(|report| report[2]), Some(2), "key 0, which is held in a reset");
    }

    /// Whether a suspend came in a round at this access. It is told then.
    fn is_suspended_at(&mut self, at: usize) -> bool {
        self.enumerates();
        self.sets_a_key();
        let has = self.enables_wakeup();
        self.wire.borrow_mut().comes = Some((at, |registers| {
            registers.suspend();
            true
        }));
        self.serve();
        let came = self.wire.borrow_mut().comes.take().is_none();
        self.serve();
        self.presses(true);
        self.serve();
        assert_eq!(self.wakes(), came && has, "a suspend at access {at}");
        came
    }

    /// A random history, and what the host knows after it.
    fn lives(&mut self, numbers: &mut Numbers) {
        self.wire.borrow_mut().line.quiet = false;
        for _ in 0..60 {
            self.serve();
            match numbers.below(6) {
                0 | 1 => self.holds(numbers.below(8) as u16),
                // A host that waits for a status packet asks for it within 50 ms.
                2 if self.is_free() => (0..60).for_each(|_| self.usb.scan()),
                _ => self.usb.work(),
            }
        }
        self.wire.borrow_mut().calms();
        self.serve();
        self.ends();
        // Endpoint 1 goes on by itself where it is ready.
        if self.asks([0x82, 0, 0, 0, 0x81, 0, 2, 0], &[]).is_none_or(|status| status != [0, 0]) {
            self.transfer(SET_CONFIGURATION, &[]);
        }
        // Where an acknowledgement was lost, that is 50 scans behind a status packet.
        (0..50).for_each(|_| self.usb.scan());
        (0..4).for_each(|_| self.polls());
        for (id, length) in [(1, 23), (2, 9), (0, 8)] {
            let known = self.known(id, length).unwrap_or([&[id][..], &vec![0; length - 1]].concat());
            if let Some(report) = self.asks([0xa1, 1, id, 1, 0, 0, length as u8, 0], &[]) {
                assert_eq!(known, report, "what the host knows, and what the keyboard reports");
            }
        }
    }
}

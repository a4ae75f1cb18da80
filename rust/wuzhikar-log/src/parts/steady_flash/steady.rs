// Exported from crates/steady_flash/src/steady.rt by bin/export-rust. Edit that file instead.
//! The adapter: a flash that reads the same each time.

use crate::parts::steady_flash::layout::{Doubt, Layout};
use crate::parts::steady_flash::making::{format, take_over};
use crate::parts::steady_flash::marks::BLANK;
use crate::parts::steady_flash::moving::{LAST_WRITTEN, Stop, erase_page};
use crate::parts::steady_flash::starting::start;
use crate::parts::steady_flash::writing::{Failed, write};
use crate::parts::steady_flash::{MarkedFlash, MountError, Unmounted};
use crate::parts::flash_model::{FlashFault, NorFlash, PAGE_SLOTS, SLOT_BYTES};

/// What a slot reads as where there is none: neither free nor a word.
pub const NO_SLOT: [u8; SLOT_BYTES] = [255, 255, 255, 127, 255, 255, 255, 255];

/// A flash as [`NorFlash`](crate::NorFlash) that reads the same each time, over a [`MarkedFlash`] whose torn cells waver, and whose
/// erase may program to 0 first.
///
/// A start finds each page as it was before the operation that a power loss came into, behind it, or torn as `NorFlash` says; from
/// then on it reads the same each time. A start that is cut is made again.
///
/// Proved (clauses of the calls): no call panics, and each ends. Between two starts it does what `NorFlash` says; once it is given up
/// it reads on, and each operation fails. A start shows what the cells may have read as, if for each page the greatest claim that was
/// begun is firm. On a healthy flash a start, a program and an erase then succeed, until marks or numbers end.
///
/// A power loss is a flash whose operations all fail from then on, the first of them torn. Where the marks were sound before: of a
/// start that is cut it is proved that the cells show no more than before it, and that one completed behind it shows what was there.
/// A session that is cut leaves sound marks, and cells that a start shows as `NorFlash` says of a torn operation. That `take_over`
/// and `format` leave sound marks, and that the page of a torn program tells the next start so, which then settles it, is **tested,
/// not proved**, under these premises:
///
/// - The flash does what [`MarkedFlash`] asks, and nothing else writes there, a plain log neither.
/// - The power is not lost inside as many starts in a row as half the triples of a page: at least 4, mostly 12. A start that ends
///   begins the count anew.
/// - No mark fails 8 times in a row, nor a page while it is made. Behind that [`MarkedFlash::give_up`] resets the chip, since nothing
///   may be told of the operation. A start answers [`MountError::Fault`] then.
///
/// Pages of the log are virtual: an erase, and each start behind a session that wrote, move a page to a spare one. Such a start takes
/// two erases and up to 516 programs for each page that was written, any other one reads alone. An erase takes two erases and three
/// programs, the first program on a page since a start or an erase one more. A program of a slot that is not blank moves the page.
///
/// ```rust
/// # fn main() -> Result<(), Box<dyn core::error::Error>> {
/// use wuzhikar_log::{FlashLog, MarkedUnits, SteadyFlash};
/// # use core::convert::Infallible;
/// # #[derive(Debug)]
/// # struct Driver(Vec<u8>);
/// # impl wuzhikar_log::FlashDriver for Driver {
/// #     type Error = Infallible;
/// #     const READ_SIZE: usize = 1;
/// #     const WRITE_SIZE: usize = 4;
/// #     const ERASE_SIZE: usize = 4096;
/// #     fn capacity(&self) -> usize { self.0.len() }
/// #     fn read(&mut self, offset: u32, bytes: &mut [u8]) -> Result<(), Infallible> {
/// #         bytes.copy_from_slice(&self.0[offset as usize..][..bytes.len()]);
/// #         Ok(())
/// #     }
/// #     fn write(&mut self, offset: u32, bytes: &[u8]) -> Result<(), Infallible> {
/// #         self.0[offset as usize..].iter_mut().zip(bytes).for_each(|(cell, byte)| *cell &= byte);
/// #         Ok(())
/// #     }
/// #     fn erase(&mut self, from: u32, to: u32) -> Result<(), Infallible> {
/// #         self.0[from as usize..to as usize].fill(0xFF);
/// #         Ok(())
/// #     }
/// # }
/// # let driver = Driver(vec![0xFF; 24576]);
///
/// // Two pages from byte 0 on, here of a driver with erase units of 4,096 bytes. What a plain log has there is taken over.
/// let mut log = FlashLog::mount(SteadyFlash::take_over(MarkedUnits::new(driver, 0, 2)?)?)?;
/// log.rewrite([5, 6])?;
/// log.push(7)?;
///
/// let driver = log.into_flash().into_flash().into_driver();
/// let log = FlashLog::mount(SteadyFlash::mount(MarkedUnits::new(driver, 0, 2)?)?)?;
/// assert_eq!(log.words().collect::<Vec<u32>>(), [5, 6, 7]);
/// # Ok(())
/// # }
/// ```
#[derive(Debug)]
pub struct SteadyFlash<F: MarkedFlash> {
    flash: F,
    layout: Layout,
    is_lost: bool,
    in_doubt: Option<Doubt>,
    operations: u64,
    faults: u64,
}

impl<F: MarkedFlash> SteadyFlash<F> {
    /// **Needs** a flash that nothing but a `SteadyFlash` wrote to since [`SteadyFlash::format`] made it, or one without marks. Nothing checks it.
    ///
    /// Finds the pages of a flash, and settles what a power loss left in doubt. It erases nothing where a page is not found.
    ///
    /// # Errors
    ///
    /// `Unmounted` with the flash and the reason ([`MountError`]).
    pub fn mount(flash: F) -> Result<SteadyFlash<F>, Unmounted<F>> {
        let mut flash = flash;
        let started = start(&mut flash);
        SteadyFlash::of(flash, started)
    }

    /// **Needs** a flash that nothing but a `SteadyFlash` wrote to since [`SteadyFlash::format`] made it, or one without marks. Nothing checks it.
    ///
    /// Mounts a flash; where it is [`Unformatted`](MountError::Unformatted), its first pages keep what they hold, and are this flash's
    /// from then on: those of a plain log at the same place, or blank ones. What they read as in this start stays.
    ///
    /// The power may be lost inside it, also again and again, where no mark of an earlier `SteadyFlash` stands there: it is made again.
    /// So a firmware may call it at each start. What stood behind these pages is lost: the slots of the spare page, and all marks.
    ///
    /// # Errors
    ///
    /// `Unmounted` with the flash and the reason. A [`Damaged`](MountError::Damaged) flash, and one of
    /// [another geometry](MountError::OtherGeometry), is refused as it is.
    pub fn take_over(flash: F) -> Result<SteadyFlash<F>, Unmounted<F>> {
        let mut flash = flash;
        let started = take_over(&mut flash);
        SteadyFlash::of(flash, started)
    }

    /// Erases all pages, whatever they hold, and mounts the flash. **All that it holds is lost.**
    ///
    /// The power may be lost inside it, also again and again, where the flash mounts, or no mark of an earlier `SteadyFlash` stands
    /// there: it is made again. On any other flash, a damaged one or one without marks, no power loss may come before it answers
    /// `Ok`. Marks of another geometry are none.
    ///
    /// # Errors
    ///
    /// `Unmounted` with the flash and the reason: `PageCount`, `Triples`, `Unreadable`, `Worn` or `Fault`.
    pub fn format(flash: F) -> Result<SteadyFlash<F>, Unmounted<F>> {
        let mut flash = flash;
        let started = format(&mut flash);
        SteadyFlash::of(flash, started)
    }

    fn of(flash: F, started: Result<Layout, MountError>) -> Result<SteadyFlash<F>, Unmounted<F>> {
        match started {
            Ok(layout) => Ok(SteadyFlash {
                flash,
                layout,
                is_lost: false,
                in_doubt: None,
                operations: 0,
                faults: 0,
            }),
            Err(why) => Err(Unmounted { flash, why }),
        }
    }

    /// Returns whether the flash was given up ([`MarkedFlash::give_up`]): each operation fails then.
    pub fn is_lost(&self) -> bool {
        self.is_lost
    }

    /// Returns the flash below, to look at it.
    pub fn flash(&self) -> &F {
        &self.flash
    }

    /// Returns the flash below as it is.
    pub fn into_flash(self) -> F {
        self.flash
    }

    /// Reads a slot. One that is not there reads as no word.
    fn read(&self, page: usize, slot: usize) -> [u8; SLOT_BYTES] {
        if page >= self.layout.pages || slot >= PAGE_SLOTS {
            return NO_SLOT;
        }
        if self.in_doubt == Some(Doubt { page, slot }) {
            return BLANK;
        }
        self.flash
            .read_slot(self.layout.held[page].page as usize, slot)
    }

    /// Programs a slot that is there, unless the flash was given up or has come to its end.
    fn program(
        &mut self,
        page: usize,
        slot: usize,
        bytes: [u8; SLOT_BYTES],
    ) -> Result<(), FlashFault> {
        if !self.takes(page, slot) {
            return Err(FlashFault);
        }
        match write(
            &mut self.flash,
            &mut self.layout,
            &mut self.in_doubt,
            page,
            slot,
            bytes,
        ) {
            Ok(()) => Ok(()),
            Err(Failed::Torn) => Err(FlashFault),
            Err(_) => {
                self.is_lost = true;
                Err(FlashFault)
            }
        }
    }

    /// Erases a page that is there, unless the flash was given up or has come to its end.
    fn erase(&mut self, page: usize) -> Result<(), FlashFault> {
        if !self.takes(page, 0) {
            return Err(FlashFault);
        }
        match erase_page(&mut self.flash, &mut self.layout, page) {
            Ok(()) => Ok(()),
            Err(Stop::InDoubt) => {
                self.is_lost = true;
                self.flash.give_up();
                Err(FlashFault)
            }
            Err(_) => Err(FlashFault),
        }
    }

    /// Whether an operation on this page may be made.
    fn takes(&self, page: usize, slot: usize) -> bool {
        page < self.layout.pages
            && slot < PAGE_SLOTS
            && !self.is_lost
            && self.in_doubt.is_none()
            && self.layout.held[page].number <= LAST_WRITTEN
    }
}

impl<F: MarkedFlash> NorFlash for SteadyFlash<F> {
    // the marks stay calm, or the flash is given up and they are sound; where no fault was counted, the claims that counted do

    fn pages(&self) -> usize {
        self.layout.pages
    }

    fn read_slot(&self, page: usize, slot: usize) -> [u8; SLOT_BYTES] {
        self.read(page, slot)
    }

    fn program_slot(
        &mut self,
        page: usize,
        slot: usize,
        bytes: [u8; SLOT_BYTES],
    ) -> Result<(), FlashFault> {
        self.operations = self.operations.wrapping_add(1);
        let done = self.program(page, slot, bytes);
        if done.is_err() {
            self.faults = self.faults.wrapping_add(1);
        }
        done
    }

    fn erase_page(&mut self, page: usize) -> Result<(), FlashFault> {
        self.operations = self.operations.wrapping_add(1);
        let done = self.erase(page);
        if done.is_err() {
            self.faults = self.faults.wrapping_add(1);
        }
        done
    }
}

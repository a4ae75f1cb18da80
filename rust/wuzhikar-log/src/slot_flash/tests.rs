//! Where slots and pages stand, and what is refused.

use super::*;
use crate::ram::Ram;
use crate::{Dropped, FlashLog, LogRefusal, WriteError};

/// Fills all slots of two pages, reads them again, and erases one; `slot` and `page` are the bytes that each takes.
fn serves<const READ: usize, const WRITE: usize, const ERASE: usize>(slot: usize, page: usize) {
    let start = 3 * ERASE;
    let mut flash = SlotFlash::new(Ram::<READ, WRITE, ERASE>::new(start + 2 * page), start as u32, 2).expect("served");
    assert_eq!(SlotFlash::<Ram<READ, WRITE, ERASE>>::page_bytes(), Ok(page as u32));
    let bytes = |p: usize, s: usize| [1, 2, 3, 4, 5, p as u8, s as u8, (s / 256) as u8];
    let each = || (0..2).flat_map(|p| (0..PAGE_SLOTS).map(move |s| (p, s)));
    for (p, s) in each() {
        assert_eq!(flash.program_slot(p, s, bytes(p, s)), Ok(()), "page {p} slot {s}");
    }
    for (p, s) in each() {
        assert_eq!(flash.read_slot(p, s), bytes(p, s));
        assert_eq!(flash.units.driver().bytes[start + p * page + s * slot..][..8], bytes(p, s));
    }
    assert_eq!(flash.erase_page(1), Ok(()));
    for (p, s) in each() {
        assert_eq!(flash.read_slot(p, s), if p == 0 { bytes(p, s) } else { [0xFF; 8] });
    }
    assert!(!flash.is_unreadable());
    assert_eq!(flash.into_driver().erased, [((start + page) as u32, (start + 2 * page) as u32)]);
}

#[test]
fn units_of_many_sizes_serve() {
    serves::<1, 1, 4096>(8, 4096);
    serves::<1, 2, 1024>(8, 4096);
    serves::<4, 4, 4096>(8, 4096);
    serves::<1, 8, 128>(8, 4096);
    serves::<8, 8, 2048>(8, 4096);
    serves::<1, 8, 65536>(8, 65536);
    serves::<1, 16, 8192>(16, 8192);
    serves::<16, 16, 16>(16, 8192);
    serves::<4, 32, 131072>(32, 131072);
    serves::<32, 32, 131072>(32, 131072);
    serves::<1, 512, 512>(512, 262144);
    // Sizes that are no power of two.
    serves::<3, 3, 12>(9, 4608);
    serves::<1, 5, 4095>(10, 8190);
    serves::<1, 24, 6000>(24, 18000);
}

/// Why a flash of this geometry and size, with pages from `start` on, does not serve.
fn refusal<const READ: usize, const WRITE: usize, const ERASE: usize>(
    capacity: usize,
    start: u32,
    pages: usize,
) -> GeometryError {
    SlotFlash::new(Ram::<READ, WRITE, ERASE>::new(capacity), start, pages).expect_err("refused")
}

#[test]
fn what_cannot_serve_is_refused_by_name() {
    assert_eq!(refusal::<1, 0, 4096>(8192, 0, 2), GeometryError::WriteUnit);
    assert_eq!(refusal::<1, 513, 513>(1 << 20, 0, 2), GeometryError::WriteUnit);
    assert_eq!(refusal::<0, 8, 4096>(8192, 0, 2), GeometryError::ReadUnit);
    assert_eq!(refusal::<16, 8, 4096>(8192, 0, 2), GeometryError::ReadUnit);
    assert_eq!(refusal::<3, 8, 4096>(8192, 0, 2), GeometryError::ReadUnit);
    assert_eq!(refusal::<1, 8, 0>(8192, 0, 2), GeometryError::EraseUnit);
    assert_eq!(refusal::<1, 8, 4095>(8192, 0, 2), GeometryError::EraseUnit);
    assert_eq!(refusal::<1, 16, 8>(8192, 0, 2), GeometryError::EraseUnit);
    #[cfg(target_pointer_width = "64")]
    assert_eq!(refusal::<1, 8, { usize::MAX - 7 }>(8192, 0, 2), GeometryError::EraseUnit);
    assert_eq!(refusal::<1, 8, 4096>(8192, 0, 1), GeometryError::Pages);
    assert_eq!(refusal::<1, 8, 4096>(65536, 0, 9), GeometryError::Pages);
    assert_eq!(refusal::<1, 8, 4096>(16384, 2048, 2), GeometryError::Start);
    assert_eq!(refusal::<1, 8, 4096>(8191, 0, 2), GeometryError::Capacity { end: 8192 });
    assert_eq!(refusal::<1, 8, 4096>(8192, 4096, 2), GeometryError::Capacity { end: 12288 });
    assert_eq!(refusal::<1, 8, 4096>(8192, 0xFFFF_F000, 2), GeometryError::Capacity { end: (1 << 32) + 4096 });
    assert_eq!(refusal::<1, 8, 0x4000_0000>(8192, 0, 8), GeometryError::Capacity { end: 1 << 33 });
}

#[test]
fn after_a_read_that_failed_nothing_is_written() {
    let mut driver = Ram::<1, 8, 4096>::new(8192);
    driver.deaf = true;
    let mut flash = SlotFlash::new(driver, 0, 2).expect("served");
    assert!(!flash.is_unreadable());
    assert_eq!(flash.read_slot(0, 0), UNREAD);
    assert!(flash.is_unreadable());
    assert_eq!(flash.program_slot(0, 0, [0; 8]), Err(FlashFault));
    assert_eq!(flash.erase_page(0), Err(FlashFault));
    let driver = flash.into_driver();
    assert!(driver.erased.is_empty());
    assert!(driver.bytes.iter().all(|&byte| byte == 0xFF));
}

#[test]
fn a_write_and_an_erase_that_failed_are_faults() {
    let mut flash = SlotFlash::new(Ram::<1, 8, 4096>::new(8192), 0, 2).expect("served");
    assert_eq!(flash.program_slot(1, 0, [1; 8]), Ok(()));
    assert_eq!(flash.program_slot(1, 0, [1; 8]), Err(FlashFault));
    // The chip ends before the second page.
    flash.units.driver().bytes.truncate(4096);
    assert_eq!(flash.program_slot(1, 0, [1; 8]), Err(FlashFault));
    assert_eq!(flash.erase_page(1), Err(FlashFault));
}

#[test]
fn a_flash_that_holds_something_else_is_formatted() {
    let mut driver = Ram::<1, 8, 4096>::new(3 * 4096);
    driver.bytes[4096..2 * 4096].fill(0);
    let mut log = FlashLog::mount(SlotFlash::new(driver, 0, 3).expect("served")).expect("3 pages");
    assert_eq!(log.push(5), Err(WriteError::Refused(LogRefusal::Unsound)));
    assert_eq!(log.rewrite([5]), Err(WriteError::Refused(LogRefusal::Unsound)));
    assert_eq!(log.format(), Ok(Dropped { words: 0, unsound: Some(1) }));
    assert_eq!(log.push(5), Err(WriteError::Refused(LogRefusal::NoRoom)));
    assert_eq!(log.rewrite([5, 6]), Ok(()));
    assert_eq!(log.push(7), Ok(()));
    // The page of the words is erased behind the others.
    assert_eq!(log.format(), Ok(Dropped { words: 3, unsound: None }));
    assert_eq!(log.words().count(), 0);
    let erased = log.into_flash().into_driver().erased;
    assert_eq!(erased, [(0, 4096), (4096, 8192), (8192, 12288), (4096, 8192), (8192, 12288), (0, 4096)]);
}

#[test]
fn a_page_has_room_for_511_words() {
    let mut log = FlashLog::mount(SlotFlash::new(Ram::<1, 8, 4096>::new(8192), 0, 2).expect("served")).expect("2 pages");
    assert_eq!(log.rewrite(0..510), Ok(()));
    assert_eq!(log.push(510), Ok(()));
    assert_eq!(log.push(511), Err(WriteError::Refused(LogRefusal::NoRoom)));
    assert_eq!(log.rewrite(0..512), Err(WriteError::Refused(LogRefusal::NoRoom)));
    assert!(log.words().eq(0..511));
    assert_eq!(log.rewrite(100..611), Ok(()));
    assert!(log.words().eq(100..611));
    // A turn that is under way takes no other beside it.
    assert_eq!(log.turn(), Ok(()));
    assert_eq!(log.rewrite([1]), Err(WriteError::Refused(LogRefusal::NotNow)));
    assert_eq!(log.push(1), Err(WriteError::Refused(LogRefusal::NotNow)));
}

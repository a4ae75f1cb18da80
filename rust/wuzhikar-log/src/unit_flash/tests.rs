//! Where units and pages stand, and what is refused.

use super::*;
use crate::ram::Ram;
use crate::{FlashLog, NorFlash, PairedFlash, Step};

/// Words are kept in units of `unit` bytes each, two for a slot, on pages of `page` bytes.
fn serves<const READ: usize, const WRITE: usize, const ERASE: usize>(unit: usize, page: usize) {
    let start = 2 * ERASE;
    let mut driver = Ram::<READ, WRITE, ERASE>::new(start + 3 * page);
    driver.bytes.fill(0);
    assert_eq!(UnitFlash::<Ram<READ, WRITE, ERASE>>::page_bytes(), Ok(page as u32));
    let units = UnitFlash::new(driver, start as u32, 3).expect("served");
    let mut log = FlashLog::mount(PairedFlash::format(units).expect("erased")).expect("3 pages");
    assert_eq!(log.rewrite([0x0102_0304]), Ok(()));
    for word in 5..515 {
        assert_eq!(log.push(word), Ok(()));
    }
    assert_eq!(log.rewrite([0x0102_0304, 7]), Ok(()));
    let driver = log.into_flash().into_flash().into_driver();
    // The first word of the second page, and its check: each byte XOR the one before it.
    let (word, check) = ([4, 3, 2, 1, !4, !3, !2, !1], [5, 7, 1, 3, !5, !7, !1, !3]);
    let slot = start + page + 2 * unit;
    assert_eq!(driver.bytes[slot..][..8], word);
    assert_eq!(driver.bytes[slot + unit..][..8], check);
    assert!(driver.bytes[slot + 8..slot + unit].iter().all(|&byte| byte == 0xFF));
    // What stands before the first page was not touched.
    assert!(driver.bytes[..start].iter().all(|&byte| byte == 0));
    let units = UnitFlash::new(driver, start as u32, 3).expect("served");
    let log = FlashLog::mount(PairedFlash::mount(units)).expect("3 pages");
    assert!(log.words().eq([0x0102_0304, 7]));
}

#[test]
fn units_of_many_sizes_serve() {
    serves::<1, 8, 2048>(8, 8192);
    serves::<8, 8, 4096>(8, 8192);
    serves::<1, 16, 8192>(16, 16384);
    serves::<32, 32, 131072>(32, 131072);
    serves::<4, 32, 8192>(32, 32768);
    serves::<1, 12, 12>(12, 12288);
    serves::<1, 512, 4096>(512, 524288);
}

#[test]
fn what_cannot_serve_is_refused_by_name() {
    assert_eq!(UnitFlash::new(Ram::<1, 4, 4096>::new(16384), 0, 2).expect_err("refused"), GeometryError::WriteUnit);
    assert_eq!(UnitFlash::new(Ram::<1, 513, 513>::new(16384), 0, 2).expect_err("refused"), GeometryError::WriteUnit);
    assert_eq!(UnitFlash::new(Ram::<16, 8, 4096>::new(16384), 0, 2).expect_err("refused"), GeometryError::ReadUnit);
    assert_eq!(UnitFlash::new(Ram::<1, 8, 4095>::new(16384), 0, 2).expect_err("refused"), GeometryError::EraseUnit);
    assert_eq!(UnitFlash::new(Ram::<1, 8, 4096>::new(16384), 0, 9).expect_err("refused"), GeometryError::Pages);
    assert_eq!(UnitFlash::new(Ram::<1, 8, 4096>::new(32768), 100, 2).expect_err("refused"), GeometryError::Start);
    let small = UnitFlash::new(Ram::<1, 8, 4096>::new(16383), 0, 2).expect_err("refused");
    assert_eq!(small, GeometryError::Capacity { end: 16384 });
}

#[test]
fn a_read_that_failed_is_an_error_of_its_unit() {
    let mut driver = Ram::<1, 8, 4096>::new(16384);
    driver.deaf = true;
    let flash = UnitFlash::new(driver, 0, 2).expect("served");
    assert_eq!(flash.read_unit(0, 0), None);
    assert!(PairedFlash::format(flash).is_err());
}

#[test]
fn a_write_and_an_erase_that_failed_are_faults() {
    let mut flash = UnitFlash::new(Ram::<1, 8, 4096>::new(16384), 0, 2).expect("served");
    assert_eq!(flash.program_unit(1, 0, [1; 8]), Ok(()));
    assert_eq!(flash.program_unit(1, 0, [1; 8]), Err(FlashFault));
    assert_eq!(flash.erase_units(1), Ok(()));
    // The chip ends before the second page.
    flash.units.driver().bytes.truncate(8192);
    assert_eq!(flash.program_unit(1, 0, [1; 8]), Err(FlashFault));
    assert_eq!(flash.erase_units(1), Err(FlashFault));
}

#[test]
fn a_word_with_bit_31_is_a_fault_and_touches_nothing() {
    let units = UnitFlash::new(Ram::<1, 8, 4096>::new(16384), 0, 2).expect("served");
    let mut log = FlashLog::mount(PairedFlash::mount(units)).expect("2 pages");
    assert_eq!(log.rewrite([]), Ok(()));
    assert_eq!(log.append(1 << 31), Ok(()));
    assert_eq!(log.step(), Step::Failed);
    assert_eq!(log.flash().read_slot(0, 1), [0xFF; 8]);
    assert_eq!(log.push(1), Ok(()));
    assert!(log.words().eq([1]));
}

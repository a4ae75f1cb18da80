//! Torn compactions of a log: each is made as a whole or not at all.

use crate::rows::Bench;
use proptest::prelude::*;
use wuzhikar_log::{Mask, NorFlash, SimFlash, Step};
use wuzhikar_tests::images::good;

const MASKS: [u8; 7] = [0x00, 0x01, 0x0F, 0x55, 0xAA, 0xFE, 0xFF];

/// A compaction with two copies. Of its steps, counted from 0, one is torn by the mask; the first may be an erase. Answers what the
/// last step did.
fn turn(bench: &mut Bench, torn: usize, mask: &[u8]) -> Step {
    let mut made = 0;
    let mut step = Step::Idle;
    let mut take = |bench: &mut Bench| {
        if made == torn {
            bench.flash.fault_next(Mask::try_from(mask).expect("a mask"));
        }
        made += 1;
        step = bench.step();
        step
    };
    for asked in ["turn\ncopy 10000006", "copy 10000007", "seal"] {
        bench.rows(asked);
        if take(bench) == Step::Moved && !bench.log.wants() {
            let _copied = take(bench);
        }
        if !bench.log.busy() {
            break;
        }
    }
    step
}

/// A turn that is torn at a step is made as a whole or not at all; answers which. Where it is not, these rows hold, and the turn
/// can be made again.
fn is_whole(bench: &mut Bench, torn: usize, mask: &[u8], failed: &str) -> bool {
    let whole = match turn(bench, torn, mask) {
        Step::Failed => {
            bench.rows(failed);
            assert_eq!(turn(bench, usize::MAX, &[]), Step::Committed);
            false
        }
        step => {
            assert_eq!(step, Step::Committed);
            true
        }
    };
    bench.rows(
        "log = page 1 seq 2, format 2, tail 3, room
        mounted = page 1 seq 2, format 2, tail 3, room
        words = 10000006, 10000007",
    );
    whole
}

/// Page 0 is full, and page 1 has a slot that is not Free: an erase, two copies and a header.
#[test]
fn each_step_of_a_compaction_is_torn_by_each_mask() {
    for mask in MASKS {
        for torn in 0..5 {
            let mut bench = Bench::blank(2);
            bench.rows("put 0 0 20000001\nfill 0 1 511 10000005\nput 1 9 10000005");
            let failed = "log = page 0 seq 1, format 2, tail 512
                mounted = page 0 seq 1, format 2, tail 512
                words = 10000005 x 511";
            assert_eq!(is_whole(&mut bench, torn, &[mask], failed), torn == 4 || mask == 0xFF, "{torn} by {mask:x}");
        }
    }
}

#[test]
fn a_log_goes_on_after_a_failed_append() {
    for mask in MASKS {
        let mut bench = Bench::blank(2);
        bench.rows("put 0 0 20000001\nappend 10000005");
        bench.flash.fault_next(Mask::try_from(&[mask][..]).expect("a mask"));
        let (step, tail) = if mask == 0xFF { ("committed", 2) } else { ("failed", if mask == 0 { 1 } else { 2 }) };
        bench.rows(&format!(
            "step = {step}
            log = page 0 seq 1, format 2, tail {tail}, room
            append 10000006
            step = committed
            slot 0 {tail} = 06000010f9ffffef"
        ));
    }
}

#[test]
fn a_torn_header_is_no_header() {
    for header in ["aaaaaaaaffffffff", "aaaaaabaffffffef"] {
        Bench::blank(2).rows(&format!(
            "put 0 0 20000001 10000005
            put 1 0 {header}
            log = page 0 seq 1, format 2, tail 2, room
            words = 10000005"
        ));
    }
}

proptest! {
    /// The target has any bytes but in slot 0, and one of the four steps is torn.
    #[test]
    fn compactions_are_torn_by_any_mask(
        pages in 2usize..9,
        slots in prop::collection::vec(any::<[u8; 8]>(), 1..30),
        torn in 0usize..4,
        mask in prop_oneof![prop::collection::vec(any::<u8>(), 0..9), prop::collection::vec(any::<u8>(), 4096)],
    ) {
        let mut flash = SimFlash::blank(pages).expect("a flash");
        let mut program = |page, slot, bytes| flash.program_slot(page, slot, bytes).expect("programmed");
        program(0, 0, good(0x2000_0001));
        program(0, 1, good(0x1000_0005));
        for (slot, bytes) in (1..512).zip(slots.iter().cycle()) {
            program(1, slot, *bytes);
        }
        is_whole(
            &mut Bench::on(flash),
            torn,
            &mask,
            "log = page 0 seq 1, format 2, tail 2, room
            mounted = page 0 seq 1, format 2, tail 2, room
            words = 10000005",
        );
    }
}

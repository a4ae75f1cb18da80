//! What a host reads after the longest fetch that it can ask for.

use kbsim::{Event, Reading, SimFlash, World};
use wuzhikar::Protocol;

/// The usages 04h to A4h of page 07h and its modifiers; the bytes after the report are ignored.
#[test]
fn a_fetch_of_ffff_and_all_usages() {
    let mut world = World::on(SimFlash::blank(2).expect("a flash")).expect("memory");
    let mut events = vec![Event::Setup([0x81, 0x06, 0, 0x22, 0, 0, 0xFF, 0xFF])];
    events.extend(vec![Event::InPacket; 13]);
    world.run(&events, &mut Vec::new()).expect("memory");
    let report = [&[1][..], &[0xFF; 22]].concat();
    for report in [report.clone(), [report, vec![0xFF; 4096]].concat()] {
        let Reading::Usages(usages) = world.host().read(Protocol::Report, &report) else { panic!("not read") };
        assert!(usages.as_slice().iter().copied().eq((0x0007_0004..=0x0007_00A4).chain(0x0007_00E0..=0x0007_00E7)));
    }
}

//! A world takes a list of events as it takes them one by one.

use arrayvec::ArrayVec;
use kbsim::{Answer, Event, WorldOf};
use proptest::collection::vec;
use proptest::prelude::*;
use wuzhikar::{Defaults, KeyNo, LayerNo, Mask, Scan, SimFlash, Standard};
use wuzhikar_tests::other::Other;

fn world<D: Defaults>(image: &[u8], armed: Option<&[u8]>) -> WorldOf<D> {
    let mut flash = SimFlash::from_image(image.to_vec()).expect("a flash");
    if let Some(mask) = armed {
        flash.fault_next(Mask::try_from(mask).expect("a mask"));
    }
    WorldOf::on(flash).expect("memory")
}

fn run<D: Defaults>(world: &mut WorldOf<D>, events: &[Event]) -> Vec<Answer> {
    let mut answers = Vec::new();
    world.run(events, &mut answers).expect("memory");
    answers
}

#[test]
fn ten_thousand_answers_of_one_run() {
    let scan = Event::Scan(Scan { rows: [1, 0, 0, 0, 0, 0] });
    assert_eq!(run(&mut world::<Standard>(&[0xFF; 8192], None), &vec![scan; 10_000]), vec![Answer::Done; 10_000]);
}

fn packet(bytes: &[u8]) -> ArrayVec<u8, 8> {
    bytes.iter().copied().collect()
}

fn mask() -> impl Strategy<Value = Vec<u8>> {
    prop_oneof![Just(vec![0xFF]), Just(vec![0x00]), vec(any::<u8>(), 0..9)]
}

/// A command, and steps of its work.
fn command() -> impl Strategy<Value = Vec<Event>> {
    let torn = || mask().prop_map(|bytes| Mask::try_from(&bytes[..]).expect("a mask"));
    let work = prop_oneof![
        6 => Just(Event::Work),
        1 => torn().prop_map(Event::WorkFault),
        1 => torn().prop_map(Event::CutInWork),
        1 => Just(Event::InPacket),
    ];
    (0u8..5, 0u8..5, 0u8..97, 0u16..0x20, vec(work, 0..6)).prop_map(|(op, layer, key, code, work)| {
        let [low, high] = code.to_le_bytes();
        let begun = [Event::Setup([0x21, 9, 3, 3, 0, 0, 6, 0]), Event::OutPacket(packet(&[3, op, layer, key, low, high]))];
        begun.into_iter().chain(work).chain([Event::InPacket]).collect()
    })
}

/// A SETUP packet, and IN tokens after it.
fn request() -> impl Strategy<Value = Vec<Event>> {
    let served = [
        [0x21, 0x0B, 0, 0, 0, 0, 0, 0],
        [0x21, 0x0B, 1, 0, 0, 0, 0, 0],
        [0x21, 0x0A, 1, 3, 0, 0, 0, 0],
        [0xA1, 0x03, 0, 0, 0, 0, 1, 0],
        [0xA1, 0x01, 3, 3, 0, 0, 6, 0],
    ];
    let fetch = (0u8..120).prop_map(|length| [0x81, 6, 0, 0x22, 0, 0, length, 0]);
    let setup = prop_oneof![prop::sample::select(served.to_vec()), fetch, any::<[u8; 8]>()];
    (setup, 0usize..15).prop_map(|(setup, tokens)| {
        let mut all = vec![Event::Setup(setup)];
        all.resize(1 + tokens, Event::InPacket);
        all
    })
}

/// Events that belong together.
fn events() -> impl Strategy<Value = Vec<Event>> {
    let keys = (any::<u16>(), 1usize..7, 0usize..3).prop_map(|(row, scans, polls)| {
        let mut all = vec![Event::Scan(Scan { rows: [row % 64, 0, 0, 0, 0, row & 0x8000] }); scans];
        all.resize(scans + polls, Event::Poll);
        all
    });
    let look = (0u8..9, 0u16..513).prop_map(|(page, slot)| {
        let (layer, key) = (LayerNo::read(page % 4).expect("a layer"), KeyNo::read((slot % 96) as u8).expect("a key"));
        vec![Event::SlotAt { page, slot }, Event::Entry(layer, key), Event::Leds]
    });
    let stray = prop_oneof![
        vec(any::<u8>(), 0..=8).prop_map(|bytes| Event::OutPacket(packet(&bytes))),
        Just(Event::Cut),
        Just(Event::BusReset),
    ];
    prop_oneof![4 => command(), 3 => request(), 2 => keys, 1 => look, 2 => stray.prop_map(|event| vec![event])]
}

/// Takes the events one by one, and those between two places as one list: the answers and the flash are the same.
fn taken_both_ways<D: Defaults>(image: &[u8], armed: Option<&[u8]>, events: &[Event], places: &[usize]) {
    let (mut one, mut many) = (world::<D>(image, armed), world::<D>(image, armed));
    let single: Vec<Answer> = events.iter().flat_map(|event| run(&mut one, std::slice::from_ref(event))).collect();
    let listed: Vec<Answer> = places.windows(2).flat_map(|ends| run(&mut many, &events[ends[0]..ends[1]])).collect();
    assert_eq!(single.len(), events.len());
    assert_eq!(single, listed);
    assert_eq!(one.flash().image(), many.flash().image());
}

proptest! {
    #[test]
    fn one_by_one_and_as_a_list(
        events in vec(events(), 1..25).prop_map(|all| all.concat()),
        cuts in vec(any::<prop::sample::Index>(), 0..5),
        page in proptest::option::of(vec(any::<[u8; 4]>(), 1..9)),
        armed in proptest::option::of(mask()),
        is_standard in any::<bool>(),
    ) {
        let mut image = vec![0xFF; 8192];
        if let Some(words) = page {
            // A page that is nearly full.
            let header = u32::to_le_bytes(0x2000_0001);
            for (slot, [a, b, c, d]) in std::iter::once(&header).chain(words.iter().cycle()).take(508).enumerate() {
                image[8 * slot..][..8].copy_from_slice(&[*a, *b, *c, *d, !a, !b, !c, !d]);
            }
        }
        let mut places: Vec<usize> = cuts.iter().map(|cut| cut.index(events.len())).collect();
        places.extend([0, events.len()]);
        places.sort_unstable();
        let taken = if is_standard { taken_both_ways::<Standard> } else { taken_both_ways::<Other> };
        taken(&image, armed.as_deref(), &events, &places);
    }
}

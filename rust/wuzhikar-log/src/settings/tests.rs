//! Settings on a simulated flash, with a cut and a fault at each operation.

use super::*;
use crate::{Mask, SimFlash};
use alloc::collections::BTreeMap;
use alloc::vec::Vec;

type Model = BTreeMap<u16, Vec<u8>>;

/// Numbers as by chance.
struct Random(u64);

impl Random {
    fn below(&mut self, n: u64) -> u64 {
        self.0 ^= self.0 << 13;
        self.0 ^= self.0 >> 7;
        self.0 ^= self.0 << 17;
        (self.0 >> 11) % n
    }

    fn change(&mut self) -> Change {
        let id = [3, 7, 8, 500, 65_535, 0, 9, 10][self.below(8) as usize];
        let bytes: Vec<u8> = (0..self.below(65)).map(|_| self.below(256) as u8).collect();
        Change { id, value: if self.below(5) == 0 { None } else { Value::new(&bytes) } }
    }
}

fn read(flash: &SimFlash) -> Model {
    let settings = FlashSettings::mount(flash.clone()).expect("pages");
    let all: Model = settings.iter().map(|(id, value)| (id, value.as_bytes().to_vec())).collect();
    for id in [0, 1, 3, 7, 8, 9, 10, 500, 65_535] {
        assert_eq!(settings.get(id).map(|value| value.as_bytes().to_vec()), all.get(&id).cloned());
    }
    all
}

fn changed(model: &Model, changes: &[Change]) -> Model {
    let mut model = model.clone();
    for change in changes {
        match &change.value {
            Some(value) => model.insert(change.id, value.as_bytes().to_vec()),
            None => model.remove(&change.id),
        };
    }
    model
}

fn mask(bytes: &[u8]) -> Mask {
    Mask::try_from(bytes).expect("it fits")
}

/// Settings on a copy of a flash, after so many steps of these changes.
fn stepped(flash: &SimFlash, changes: &[Change], steps: usize) -> (FlashSettings<SimFlash>, Work) {
    let mut settings = FlashSettings::mount(flash.clone()).expect("pages");
    let mut under_way = settings.begin(changes).expect("there is room");
    let mut work = Work::Working;
    for _ in 0..steps {
        assert_eq!(work, Work::Working);
        work = under_way.step();
    }
    (settings, work)
}

/// Makes the changes, and tears each operation of theirs, or some of many, by several masks.
fn with_cuts(flash: &SimFlash, model: &Model, changes: &[Change], random: &mut Random) -> (SimFlash, Model, usize) {
    let new = changed(model, changes);
    let steps = (1..).find(|&steps| stepped(flash, changes, steps).1 == Work::Stored).expect("it ends");
    assert!(steps <= 514);
    let cuts: Vec<usize> = if steps < 8 {
        (0..steps).collect()
    } else {
        (0..8).map(|_| random.below(steps as u64) as usize).chain([0, steps - 1]).collect()
    };
    for &at in &cuts {
        for bits in [Vec::new(), [255].to_vec(), (0..8).map(|_| random.below(256) as u8).collect()] {
            let (mut settings, _) = stepped(flash, changes, at);
            assert_eq!(read(&settings.flash), *model, "in force too early");
            settings.flash.fault_next(mask(&bits));
            let work = settings.settings.step(&mut settings.flash, changes);
            let found = read(&settings.flash);
            assert!(found == if work == Work::Stored { &new } else { model }.clone(), "lost, or torn in two");
            if work == Work::Failed {
                // A second try succeeds.
                settings.transaction(changes).expect("there is room");
                assert_eq!(read(&settings.flash), new);
            }
        }
    }
    let (settings, _) = stepped(flash, changes, steps);
    let flash = settings.into_flash();
    assert_eq!(read(&flash), new);
    (flash, new, 3 * cuts.len())
}

#[test]
fn settings_outlive_each_cut() {
    let mut random = Random(0x0123_4567_89AB_CDEF);
    let mut cuts = 0;
    for pages in [2, 3] {
        let mut flash = SimFlash::blank(pages).expect("memory");
        let mut model = Model::new();
        for _ in 0..70 {
            let count = [1, 1, 1, 1, 1, 2, 3, 0][random.below(8) as usize];
            let changes: Vec<Change> = (0..count).map(|_| random.change()).collect();
            let made;
            (flash, model, made) = with_cuts(&flash, &model, &changes, &mut random);
            cuts += made;
        }
    }
    assert!(cuts > 2000, "{cuts}");
}

#[test]
fn a_full_store_says_so_and_can_be_emptied() {
    let mut settings = FlashSettings::mount(SimFlash::blank(2).expect("memory")).expect("2 pages");
    assert_eq!(settings.room_left(), 511);
    for id in 0..22 {
        settings.set(id, [id as u8; 64]).expect("23 words");
    }
    assert_eq!(settings.room_left(), 511 - 22 * 23);
    let before = read(settings.flash());
    assert_eq!(settings.set(22, [1; 64]), Err(SettingsError::Full));
    assert_eq!(settings.set(22, [1; 65]), Err(SettingsError::TooLong));
    assert_eq!(read(settings.flash()), before);
    settings.set(22, [1; 12]).expect("5 words");
    assert_eq!(settings.room_left(), 0);
    assert_eq!(settings.set(23, []), Err(SettingsError::Full));
    settings.remove(5).expect("fewer words");
    settings.set(23, b"there is room").expect("room");
    assert!(settings.contains(23) && !settings.contains(5));
}

#[test]
fn words_of_something_else_are_left() {
    let mut log = FlashLog::mount(SimFlash::blank(2).expect("memory")).expect("2 pages");
    log.rewrite([0x1234_5678]).expect("room");
    let mut settings = FlashSettings::mount(log.into_flash()).expect("2 pages");
    assert_eq!(settings.set(1, b"x"), Err(SettingsError::Foreign));
    assert_eq!(settings.compact(), Err(SettingsError::Foreign));
    let (mut settings, dropped) = FlashSettings::format(settings.into_flash()).expect("erased");
    assert_eq!(dropped.words, 1);
    settings.set(1, b"x").expect("room");
}

#[test]
fn what_is_dropped_on_the_way_is_forgotten() {
    let mut settings = FlashSettings::mount(SimFlash::blank(2).expect("memory")).expect("2 pages");
    settings.set(1, 7u32.to_le_bytes()).expect("room");
    let change = [Change { id: 1, value: Value::new(&[9; 64]) }];
    assert_eq!(settings.begin(&change).expect("room").step(), Work::Working);
    assert_eq!(settings.get(1).and_then(|value| value.as_u32()), Some(7));
    settings.set(2, [1]).expect("room");
    assert_eq!(
        (settings.get(1).and_then(|value| value.as_u32()), settings.get(2).and_then(|value| value.as_bool())),
        (Some(7), Some(true))
    );
}

#[test]
fn numbers_truth_values_and_text_come_back() {
    assert_eq!(Value::from(0xA5u8).as_bytes(), [0xA5]);
    assert_eq!(Value::from(0xA5B6u16).as_bytes(), [0xB6, 0xA5]);
    assert_eq!(Value::from(u8::MAX).as_u8(), Some(u8::MAX));
    assert_eq!(Value::from(u16::MAX - 1).as_u16(), Some(u16::MAX - 1));
    assert_eq!(Value::from(u32::MAX - 1).as_u32(), Some(u32::MAX - 1));
    assert_eq!(Value::from(u64::MAX - 1).as_u64(), Some(u64::MAX - 1));
    for truth in [false, true] {
        assert_eq!(Value::from(truth).as_bool(), Some(truth));
    }
    let most = [b'x'; 65];
    let text = |len| core::str::from_utf8(&most[..len]).expect("ASCII");
    assert_eq!(Value::try_from(text(64)).as_ref().map(|value| value.as_str()), Ok(Some(text(64))));
    assert_eq!(Value::try_from(text(65)), Err(SettingsError::TooLong));
    assert_eq!(Value::try_from(&most[..]), Err(SettingsError::TooLong));
    assert_eq!(Value::try_from([0xFF].as_slice()).expect("short").as_str(), None);
}

#[test]
fn bytes_text_and_values_are_stored_as_they_are() {
    let mut settings = FlashSettings::mount(SimFlash::blank(2).expect("memory")).expect("2 pages");
    settings.set(1, "lamp").expect("room");
    settings.set(2, b"lamp").expect("room");
    settings.set(3, Value::from(7u64)).expect("room");
    let [one, two, three] = [1, 2, 3].map(|id| settings.get(id).expect("stored"));
    assert_eq!((&one, three.as_u64()), (&two, Some(7)));
    assert_eq!(settings.set(4, "x".repeat(65)), Err(SettingsError::TooLong));
}

#[test]
fn a_table_has_the_values_of_the_flash() {
    use crate::{FREE_ENTRY, TableTooSmall, table_contains, table_value};
    let mut random = Random(0x0FED_CBA9_8765_4321);
    let mut settings = FlashSettings::mount(SimFlash::blank(2).expect("memory")).expect("2 pages");
    let mut table = [FREE_ENTRY; 8];
    assert_eq!(settings.fill_table(&mut table), Ok(()));
    for _ in 0..300 {
        let changes = [random.change()];
        settings.transaction(&changes).expect("there is room");
        assert_eq!(settings.refresh_table(&mut table, changes[0].id), Ok(()));
        let mut anew = [FREE_ENTRY; 8];
        assert_eq!(settings.fill_table(&mut anew), Ok(()));
        for id in [0, 1, 3, 7, 8, 9, 10, 500, 65_535] {
            let value = settings.get(id);
            for table in [&table, &anew] {
                assert_eq!(table_value(table, id).map(Value::as_bytes), value.as_ref().map(Value::as_bytes));
                assert_eq!(table_contains(table, id), value.is_some());
            }
        }
        let count = settings.iter().count();
        assert_eq!(settings.fill_table(&mut anew[..count]), Ok(()));
        if count > 0 {
            assert_eq!(settings.fill_table(&mut anew[..count - 1]), Err(TableTooSmall));
        }
    }
    assert_eq!(core::mem::size_of::<Change>(), 70);
}

// SPDX-License-Identifier: MIT OR Apache-2.0
//! Settings over a flash of any bytes, whose operations may fail: the values are those of a map.
#![no_main]

use std::collections::BTreeMap;

use fuzz::Bytes;
use wuzhikar_log::{Change, FlashSettings, Mask, SimFlash, Value};

fuzz::target!(changes);

type Values = BTreeMap<u16, Vec<u8>>;

fn changes(bytes: &[u8]) {
    let mut bytes = Bytes(bytes);
    let pages = 2 + usize::from(bytes.next_byte() % 3);
    let mut image = vec![0xFF; 4096 * pages];
    // One in four starts on a flash with something on it.
    if bytes.next_byte() % 4 == 0 {
        let some = bytes.take(64);
        image[..some.len()].copy_from_slice(some);
        image[4096..4096 + some.len()].copy_from_slice(some);
    }
    let flash = SimFlash::from_image(image).expect("2 to 4 pages");
    let mut settings = FlashSettings::mount(flash).expect("2 to 4 pages");
    let mut values = values_of(&settings);
    while !bytes.is_empty() {
        settings = change(settings, &mut values, &mut bytes);
        assert_eq!(values_of(&settings), values);
    }
}

fn values_of(settings: &FlashSettings<SimFlash>) -> Values {
    settings.iter().map(|(id, value)| (id, value.as_bytes().to_vec())).collect()
}

fn change(mut settings: FlashSettings<SimFlash>, values: &mut Values, bytes: &mut Bytes<'_>) -> FlashSettings<SimFlash> {
    let how = bytes.next_byte();
    let changes: Vec<Change> = (0..1 + how / 64).map(|_| drawn(bytes)).collect();
    let done = match how % 8 {
        0..3 => settings.transaction(&changes),
        3..6 => match &changes[0].value {
            Some(value) => settings.set(changes[0].id, value.as_bytes()),
            None => settings.remove(changes[0].id),
        },
        6 => settings.compact(),
        _ => {
            // A fault, or a power loss: the flash is torn at its next operation, and mounted again.
            let mut flash = settings.into_flash();
            flash.fault_next(Mask::from_iter(bytes.array::<8>()));
            return FlashSettings::mount(flash).expect("2 to 4 pages");
        }
    };
    let applied = match how % 8 {
        0..3 => &changes[..],
        3..6 => &changes[..1],
        _ => &[],
    };
    if done.is_ok() {
        for change in applied {
            match &change.value {
                Some(value) => values.insert(change.id, value.as_bytes().to_vec()),
                None => values.remove(&change.id),
            };
        }
    }
    settings
}

fn drawn(bytes: &mut Bytes<'_>) -> Change {
    let (id, length) = (u16::from(bytes.next_byte() % 5), usize::from(bytes.next_byte() % 80));
    Change { id, value: if length == 79 { None } else { Value::new(bytes.take(length.min(64))) } }
}

//! Images of any bytes: what a log reads of them, compared with a plain reading.

use crate::rows::{Bench, shown};
use proptest::prelude::*;
use wuzhikar_log::{Log, Mask, NorFlash, SimFlash};
use wuzhikar_tests::images::{self, good};

/// The bytes of a slot 0: any bytes, any word, Free, or a header of format 1 or 2, or of another one. Of the sequence numbers
/// 0 to 3 and the greatest one, several pages have the same.
fn header() -> impl Strategy<Value = [u8; 8]> {
    prop_oneof![
        1 => any::<[u8; 8]>(),
        1 => any::<u32>().prop_map(good),
        2 => Just([0xFF; 8]),
        1 => (1u32..3).prop_map(|format| good((format << 28) + 0x0FFF_FFFF)),
        8 => (1u32..4, 0u32..4).prop_map(|(format, number)| good((format << 28) + number)),
    ]
}

/// The bytes of another slot: any bytes, any word, or Free.
fn record() -> impl Strategy<Value = [u8; 8]> {
    prop_oneof![any::<[u8; 8]>(), any::<u32>().prop_map(good), Just([0xFF; 8]), Just([0xFF; 8])]
}

/// A page of slots up to some place, with the rest blank.
fn page() -> impl Strategy<Value = Vec<u8>> {
    (header(), prop::collection::vec(record(), 0..40), 0usize..512).prop_map(|(header, records, end)| {
        let mut page = vec![0xFF; 4096];
        images::put(&mut page, 0, 0, header);
        for (slot, record) in (1..end).zip(records.iter().cycle()) {
            images::put(&mut page, 0, slot, *record);
        }
        page
    })
}

/// What a log says of itself, by the plain reading.
fn plain(image: &[u8]) -> String {
    let unsound = images::unsound(image).map_or(String::new(), |page| format!(", unsound {page}"));
    let Some((page, number, format)) = images::newest(image) else { return format!("no page{unsound}") };
    let tail = images::tail(image, page);
    let room = if format == 2 && tail < 512 { ", room" } else { "" };
    format!("page {page} seq {number:x}, format {format}, tail {tail}{room}{unsound}")
}

#[test]
fn equal_flashes_have_equal_bytes_mask_and_counts() {
    let [mut one, mut other] = [2, 2].map(|pages| SimFlash::blank(pages).expect("a flash"));
    assert_eq!(one, other);
    one.fault_next(Mask::new());
    assert_ne!(one, other);
    one.disarm();
    assert_eq!(one, other);
    one.erase_page(0).expect("erased");
    assert_ne!(one, other);
    other.erase_page(1).expect("erased");
    assert_eq!(one, other);
}

proptest! {
    #[test]
    fn images_are_read_as_they_stand(pages in prop::collection::vec(page(), 2..=8)) {
        let flash = SimFlash::from_image(pages.concat()).expect("a flash");
        let log = Log::mount(&flash);
        prop_assert_eq!(shown(&log), plain(flash.image()));
        prop_assert_eq!(log.words(&flash).collect::<Vec<_>>(), images::words(flash.image()));
    }

    #[test]
    fn an_image_of_any_bytes_has_no_log(byte in prop::collection::vec(any::<u8>(), 997), pages in 2usize..9) {
        let image: Vec<u8> = byte.iter().copied().cycle().take(4096 * pages).collect();
        let bench = Bench::on(SimFlash::from_image(image).expect("a flash"));
        prop_assert_eq!(shown(&bench.log), plain(bench.flash.image()));
    }
}

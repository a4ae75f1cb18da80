//! The number of pages that a log stands on. Written by hand: tested, not proved.

use crate::parts::flash_model::NorFlash;

/// A flash that has not 2 to 8 pages.
///
/// A compaction copies from one page to the next: with one page it would erase what it is to copy. The format of a
/// page's header has room for 8.
///
/// ```
/// # use wuzhikar_log::{FlashFault, NorFlash};
/// use wuzhikar_log::{FlashLog, PageCount};
/// # struct OnePage;
/// # impl NorFlash for OnePage {
/// #     fn pages(&self) -> usize { 1 }
/// #     fn read_slot(&self, _page: usize, _slot: usize) -> [u8; 8] { [0xff; 8] }
/// #     fn program_slot(&mut self, _page: usize, _slot: usize, _bytes: [u8; 8]) -> Result<(), FlashFault> { Err(FlashFault) }
/// #     fn erase_page(&mut self, _page: usize) -> Result<(), FlashFault> { Err(FlashFault) }
/// # }
///
/// assert_eq!(FlashLog::mount(OnePage).err(), Some(PageCount { pages: 1 }));
/// ```
#[derive(Clone, Copy, Debug, PartialEq, Eq)]
pub struct PageCount {
    /// How many pages the flash says that it has.
    pub pages: usize,
}

impl PageCount {
    /// Refuses a flash that has not 2 to 8 pages. The flash is asked for their number alone: nothing is read or written.
    pub fn check<F: NorFlash>(flash: &F) -> Result<(), PageCount> {
        match flash.pages() {
            2..=8 => Ok(()),
            pages => Err(PageCount { pages }),
        }
    }
}

impl core::fmt::Display for PageCount {
    fn fmt(&self, f: &mut core::fmt::Formatter<'_>) -> core::fmt::Result {
        write!(f, "a flash has 2 to 8 pages, and this one has {}", self.pages)
    }
}

impl core::error::Error for PageCount {}

#[cfg(test)]
mod tests {
    use super::*;
    use crate::{FlashFault, FlashLog};
    use std::string::ToString;

    /// A flash that is asked for nothing but its number of pages.
    #[derive(Debug)]
    struct Untouched(usize);

    impl NorFlash for Untouched {
        fn pages(&self) -> usize {
            self.0
        }

        fn read_slot(&self, page: usize, slot: usize) -> [u8; 8] {
            panic!("page {page}, slot {slot} is read")
        }

        fn program_slot(&mut self, page: usize, slot: usize, _bytes: [u8; 8]) -> Result<(), FlashFault> {
            panic!("page {page}, slot {slot} is programmed")
        }

        fn erase_page(&mut self, page: usize) -> Result<(), FlashFault> {
            panic!("page {page} is erased")
        }
    }

    #[test]
    fn another_number_of_pages_than_2_to_8_is_refused_untouched() {
        for pages in [0, 1, 9, usize::MAX] {
            assert_eq!(PageCount::check(&Untouched(pages)), Err(PageCount { pages }));
            assert_eq!(FlashLog::mount(Untouched(pages)).err(), Some(PageCount { pages }));
        }
        assert!((2..=8).all(|pages| PageCount::check(&Untouched(pages)).is_ok()));
        assert_eq!(PageCount { pages: 9 }.to_string(), "a flash has 2 to 8 pages, and this one has 9");
    }
}

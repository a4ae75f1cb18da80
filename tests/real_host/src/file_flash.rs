// SPDX-License-Identifier: MIT OR Apache-2.0
//! A flash in a file, which has each operation as soon as it is done: it outlives this process, however that ends.

use std::cell::Cell;
use std::fs::{File, OpenOptions};
use std::io::{Error, Read, Result};
use std::os::unix::fs::FileExt;
use std::path::Path;
use std::time::Duration;
use wuzhikar::{FlashFault, Mask, NorFlash, PAGE_BYTES, SLOT_BYTES, SimFlash};

pub struct FileFlash {
    flash: SimFlash,
    file: File,
    /// How long an operation takes.
    pause: Duration,
    /// By what the next operation is torn, inside of which the power goes.
    tears: Cell<Option<Mask>>,
    /// The power goes: by this the process ends.
    loss: fn(),
}

impl FileFlash {
    /// The flash in this file, each of whose operations takes so long.
    pub fn open(path: &Path, pause: Duration, loss: fn()) -> Result<FileFlash> {
        let file = OpenOptions::new().read(true).write(true).open(path)?;
        let mut bytes = Vec::new();
        (&file).take(8 * PAGE_BYTES as u64 + 1).read_to_end(&mut bytes)?;
        let flash = SimFlash::from_image(bytes).map_err(Error::other)?;
        Ok(FileFlash { flash, file, pause, tears: Cell::new(None), loss })
    }

    /// The power goes inside the next operation, as far as this mask lets it.
    pub fn tear(&self, mask: Mask) {
        self.tears.set(Some(mask));
    }

    pub fn image(&self) -> &[u8] {
        self.flash.image()
    }

    /// An operation on these bytes.
    fn operate(
        &mut self,
        at: usize,
        length: usize,
        does: impl FnOnce(&mut SimFlash) -> std::result::Result<(), FlashFault>,
    ) {
        std::thread::sleep(self.pause);
        let tears = self.tears.take();
        let is_torn = tears.is_some();
        tears.into_iter().for_each(|mask| self.flash.fault_next(mask));
        let done = does(&mut self.flash);
        let kept = self.file.write_all_at(&self.flash.image()[at..at + length], at as u64);
        kept.expect("a file that can be written");
        assert_eq!(done.is_err(), is_torn, "the flash fails where the power goes");
        if is_torn {
            (self.loss)();
        }
    }
}

impl NorFlash for FileFlash {
    fn pages(&self) -> usize {
        self.flash.pages()
    }

    fn read_slot(&self, page: usize, slot: usize) -> [u8; SLOT_BYTES] {
        self.flash.read_slot(page, slot)
    }

    fn program_slot(
        &mut self,
        page: usize,
        slot: usize,
        bytes: [u8; SLOT_BYTES],
    ) -> std::result::Result<(), FlashFault> {
        self.operate(PAGE_BYTES * page + SLOT_BYTES * slot, SLOT_BYTES, |flash| flash.program_slot(page, slot, bytes));
        Ok(())
    }

    fn erase_page(&mut self, page: usize) -> std::result::Result<(), FlashFault> {
        self.operate(PAGE_BYTES * page, PAGE_BYTES, |flash| flash.erase_page(page));
        Ok(())
    }
}

#[cfg(test)]
pub mod tests {
    use super::*;
    use crate::class::Class;
    use crate::device::PRODUCT;
    use crate::on_bus::{Ended, OnBus};
    use std::panic::{AssertUnwindSafe, catch_unwind};
    use std::path::PathBuf;

    /// A file with a flash, for one test.
    pub struct Kept(PathBuf);

    impl Kept {
        pub fn blank(test: &str) -> Kept {
            let path = std::env::temp_dir().join(format!("real_host.{}.{test}", std::process::id()));
            std::fs::write(&path, [0xff; 2 * PAGE_BYTES]).unwrap();
            Kept(path)
        }

        pub fn flash(&self, loss: fn()) -> FileFlash {
            FileFlash::open(&self.0, Duration::ZERO, loss).unwrap()
        }
    }

    impl Drop for Kept {
        fn drop(&mut self) {
            let _ = std::fs::remove_file(&self.0);
        }
    }

    pub fn power_goes() {
        panic!("the power goes");
    }

    #[test]
    fn each_operation_is_in_the_file_and_a_torn_one_is_the_last() {
        const SET: [u8; 8] = [0x21, 9, 3, 3, 0, 0, 6, 0];
        let kept = Kept::blank("torn");
        let mut class = Class::new(kept.flash(power_goes), &PRODUCT).unwrap();
        assert_eq!(class.control(SET, &[3, 1, 0, 0, 5, 0]), Ended::Data(vec![]));
        assert_eq!(class.image(), std::fs::read(&kept.0).unwrap());
        let stored = class.image().to_vec();
        class.tear(vec![0x0f]);
        assert!(catch_unwind(AssertUnwindSafe(|| class.control(SET, &[3, 1, 0, 0, 6, 0]))).is_err());
        let torn = std::fs::read(&kept.0).unwrap();
        let changed: Vec<usize> = (0..torn.len()).filter(|at| torn[*at] != stored[*at]).collect();
        assert!(
            !changed.is_empty() && changed.iter().all(|at| at / SLOT_BYTES == changed[0] / SLOT_BYTES),
            "{changed:?}"
        );
        assert_eq!(kept.flash(power_goes).image(), torn);
    }

    #[test]
    fn a_file_of_another_size_is_no_flash() {
        for bytes in [0, PAGE_BYTES, 2 * PAGE_BYTES + 1, 9 * PAGE_BYTES] {
            let kept = Kept::blank("size");
            std::fs::write(&kept.0, vec![0xff; bytes]).unwrap();
            assert!(FileFlash::open(&kept.0, Duration::ZERO, power_goes).is_err(), "{bytes}");
        }
    }
}

//! The marks of a steady flash in the bytes of a chip, and flashes of other geometries at the same place.

use std::fmt::Write;
use std::fs;
use std::path::Path;

use wuzhikar_log::{FlashDriver, MarkedFlash, MarkedUnits, MountError, NorFlash, SteadyFlash};

/// A chip in memory, with erase units of so many bytes, that counts what is written.
#[derive(Clone, Debug)]
struct Chip<const ERASE: usize> {
    bytes: Vec<u8>,
    operations: u32,
}

impl<const ERASE: usize> FlashDriver for Chip<ERASE> {
    type Error = std::convert::Infallible;
    const READ_SIZE: usize = 1;
    const WRITE_SIZE: usize = 4;
    const ERASE_SIZE: usize = ERASE;

    fn capacity(&self) -> usize {
        self.bytes.len()
    }

    fn read(&mut self, offset: u32, bytes: &mut [u8]) -> Result<(), Self::Error> {
        bytes.copy_from_slice(&self.bytes[offset as usize..][..bytes.len()]);
        Ok(())
    }

    fn write(&mut self, offset: u32, bytes: &[u8]) -> Result<(), Self::Error> {
        self.operations += 1;
        self.bytes[offset as usize..].iter_mut().zip(bytes).for_each(|(cell, byte)| *cell &= byte);
        Ok(())
    }

    fn erase(&mut self, from: u32, to: u32) -> Result<(), Self::Error> {
        self.operations += 1;
        self.bytes[from as usize..to as usize].fill(0xFF);
        Ok(())
    }
}

type Units<const ERASE: usize> = MarkedUnits<Chip<ERASE>>;

fn blank<const ERASE: usize>() -> Chip<ERASE> {
    Chip { bytes: vec![0xFF; 128 * 1024], operations: 0 }
}

/// Where marks start, and where they end.
fn marks<const ERASE: usize>(start: u32, pages: usize) -> (u32, u32) {
    (start + 4096 * (pages as u32 + 1), start + Units::<ERASE>::bytes(pages).expect("served") as u32)
}

/// Formats a flash, moves each page, and mounts it with other pages, or at another place.
fn only_the_same_geometry_mounts<const ERASE: usize>() {
    let geometries = || (2..=8).flat_map(|pages| (0..8).map(move |unit| (unit * ERASE as u32, pages)));
    for (start, pages) in geometries() {
        let mut steady = SteadyFlash::format(Units::<ERASE>::new(blank(), start, pages).expect("served")).expect("formatted");
        for page in 0..pages {
            steady.program_slot(page, 0, [1, 0, 0, 0, 254, 255, 255, 255]).expect("programmed");
            steady.erase_page(page).expect("erased");
        }
        let chip = Chip { operations: 0, ..steady.into_flash().into_driver() };
        for (other_start, other_pages) in geometries() {
            let units = Units::<ERASE>::new(chip.clone(), other_start, other_pages).expect("served");
            let told = SteadyFlash::take_over(units);
            if (other_start, other_pages) == (start, pages) {
                assert!(told.is_ok());
                continue;
            }
            // Whether a mark lies in the other flash.
            let (from, to) = marks::<ERASE>(start, pages);
            let end = marks::<ERASE>(other_start, other_pages).1;
            let is_seen = (from..to).step_by(8).any(|at| {
                (other_start..end).contains(&at) && !matches!(chip.bytes[at as usize..][..8], [0, ..] | [0xFF, 0xFF, ..])
            });
            match told {
                Err(refused) if is_seen => {
                    assert_eq!(refused.why, MountError::OtherGeometry, "{start} {pages} {other_start} {other_pages}");
                    assert_eq!(refused.flash.into_driver().operations, 0);
                }
                Err(refused) => panic!("{}: {start} {pages} {other_start} {other_pages}", refused.why),
                Ok(_) => assert!(!is_seen, "{start} {pages} {other_start} {other_pages}"),
            }
        }
    }
}

#[test]
fn marks_of_another_geometry_are_refused_by_name() {
    only_the_same_geometry_mounts::<4096>();
    only_the_same_geometry_mounts::<1024>();
}

#[test]
fn the_marks_of_the_documents_are_those_of_the_code() {
    let mut steady = SteadyFlash::format(Units::<4096>::new(blank(), 0, 2).expect("served")).expect("formatted");
    steady.erase_page(1).expect("erased");
    // The checks build in a copy of the repository, below it.
    let mut folders = Path::new(env!("CARGO_MANIFEST_DIR")).ancestors();
    let formats = folders.find_map(|folder| fs::read_to_string(folder.join("docs/formats.md")).ok()).expect("the page");
    for mark in [1, 2] {
        let mut line = String::new();
        for byte in steady.flash().read_mark(2, mark) {
            write!(line, "{byte:02X} ").expect("a text");
        }
        assert!(formats.contains(&format!("`{}`", line.trim_end())), "docs/formats.md lacks {line}");
    }
}

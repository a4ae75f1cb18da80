// Exported from crates/world/src/injector.rt by bin/export-rust. Edit that file instead.
//! The fault injector: a simulated flash whose next operation can be set to be torn.

use wuzhikar_log::parts::flash_model::{FlashFault, Mask, NorFlash, SLOT_BYTES, SimFlash};

/// A flash operation, as the keyboard asks for it.
#[derive(Clone, Copy, Debug, PartialEq, Eq)]
pub enum Operation {
    /// A page is erased.
    Erase {
        page: usize,
    },
    /// A slot is programmed.
    Program {
        page: usize,
        slot: usize,
        bytes: [u8; SLOT_BYTES],
    },
}

/// A simulated flash, and the mask that its next operation is to be torn by. The mask is armed when
/// the operation comes: where none comes, what is armed already stays so. The latest operation is
/// noted.
#[derive(Debug)]
pub(crate) struct Injector {
    pub(crate) flash: SimFlash,
    pub(crate) tear: Option<Mask>,
    pub(crate) asked: Option<Operation>,
}

impl Injector {
    /// Notes an operation, and arms the flash where a mask waits.
    fn begin(&mut self, operation: Operation) {
        self.asked = Some(operation);
        if let Some(mask) = self.tear.take() {
            self.flash.fault_next(mask);
        }
    }
}

impl NorFlash for Injector {
    fn pages(&self) -> usize {
        self.flash.pages()
    }

    fn read_slot(&self, page: usize, slot: usize) -> [u8; SLOT_BYTES] {
        self.flash.read_slot(page, slot)
    }

    fn program_slot(
        &mut self,
        page: usize,
        slot: usize,
        bytes: [u8; SLOT_BYTES],
    ) -> Result<(), FlashFault> {
        self.begin(Operation::Program { page, slot, bytes });
        self.flash.program_slot(page, slot, bytes)
    }

    fn erase_page(&mut self, page: usize) -> Result<(), FlashFault> {
        self.begin(Operation::Erase { page });
        self.flash.erase_page(page)
    }
}

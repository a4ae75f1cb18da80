//! What a driver of a flash has: the calls of `embedded_storage::nor_flash`. Written by hand.

/// A driver of a NOR flash, with the names, the constants and the calls of `embedded_storage::nor_flash::NorFlash`
/// (version 0.3). Offsets and sizes are in bytes.
///
/// [`SlotFlash`](crate::SlotFlash) makes the flash of a log from it. Whoever has a driver that implements the trait of
/// `embedded-storage` hands each call on; this crate does not depend on it:
///
/// ```
/// # mod embedded_storage {
/// #     pub mod nor_flash {
/// #         pub trait ErrorType { type Error: core::fmt::Debug; }
/// #         pub trait ReadNorFlash: ErrorType {
/// #             const READ_SIZE: usize;
/// #             fn read(&mut self, offset: u32, bytes: &mut [u8]) -> Result<(), Self::Error>;
/// #             fn capacity(&self) -> usize;
/// #         }
/// #         pub trait NorFlash: ReadNorFlash {
/// #             const WRITE_SIZE: usize;
/// #             const ERASE_SIZE: usize;
/// #             fn erase(&mut self, from: u32, to: u32) -> Result<(), Self::Error>;
/// #             fn write(&mut self, offset: u32, bytes: &[u8]) -> Result<(), Self::Error>;
/// #         }
/// #     }
/// # }
/// use embedded_storage::nor_flash::NorFlash;
/// use wuzhikar_log::FlashDriver;
///
/// struct Driver<D>(D);
///
/// impl<D: NorFlash> FlashDriver for Driver<D> {
///     type Error = D::Error;
///     const READ_SIZE: usize = D::READ_SIZE;
///     const WRITE_SIZE: usize = D::WRITE_SIZE;
///     const ERASE_SIZE: usize = D::ERASE_SIZE;
///
///     fn capacity(&self) -> usize {
///         self.0.capacity()
///     }
///
///     fn read(&mut self, offset: u32, bytes: &mut [u8]) -> Result<(), D::Error> {
///         self.0.read(offset, bytes)
///     }
///
///     fn write(&mut self, offset: u32, bytes: &[u8]) -> Result<(), D::Error> {
///         self.0.write(offset, bytes)
///     }
///
///     fn erase(&mut self, from: u32, to: u32) -> Result<(), D::Error> {
///         self.0.erase(from, to)
///     }
/// }
/// # fn main() {}
/// ```
pub trait FlashDriver {
    /// What a failed call answers.
    type Error: core::fmt::Debug;

    /// Bytes of which offset and length of each read are multiples.
    const READ_SIZE: usize;

    /// Bytes of a write unit: offset and length of each write are multiples.
    const WRITE_SIZE: usize;

    /// Bytes of an erase unit: both ends of each erase are multiples.
    const ERASE_SIZE: usize;

    /// Returns the size of the flash in bytes.
    fn capacity(&self) -> usize;

    /// Reads the bytes from `offset` on. It gives the same until the next write or erase.
    fn read(&mut self, offset: u32, bytes: &mut [u8]) -> Result<(), Self::Error>;

    /// Programs the bytes from `offset` on, all of which read as FFh before, and returns when that is done.
    fn write(&mut self, offset: u32, bytes: &[u8]) -> Result<(), Self::Error>;

    /// Erases the bytes from `from` up to `to`, without `to`, and returns when that is done: they read as FFh then.
    fn erase(&mut self, from: u32, to: u32) -> Result<(), Self::Error>;

    /// Resets the chip. [`SteadyFlash`](crate::SteadyFlash) alone calls it, where the flash has failed 8 times in a row inside an
    /// operation of which nothing may be told: neither that it is stored, nor that it failed.
    ///
    /// It does nothing where a driver leaves it out. The operation is then told as failed, though a later start may find it done,
    /// and each later one fails.
    fn give_up(&mut self) {}
}

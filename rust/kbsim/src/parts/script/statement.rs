// Exported from crates/script/src/statement.rt by bin/export-rust. Edit that file instead.
//! What a line of a script says.

use crate::parts::script::LineFault;
use crate::parts::script::keys::keys;
use crate::parts::script::mask::MaskWord;
use crate::parts::script::number::{byte, bytes, count, number, packet};
use crate::parts::script::words::Words;
use arrayvec::ArrayVec;
use wuzhikar::parts::debounce::Scan;
use wuzhikar_log::parts::flash_model::PAGE_SLOTS;
use wuzhikar::parts::layers::{KeyNo, LayerNo};
use core::num::NonZeroU16;

/// The most keys that a scan names.
const MOST_KEYS: usize = 96;

/// The first word of a line.
#[derive(Clone, Copy, Debug, PartialEq, Eq)]
pub enum Keyword {
    Scan,
    Scans,
    Poll,
    Setup,
    Out,
    In,
    Work,
    WorkFault,
    Cut,
    CutWork,
    Reset,
    Entry,
    Slot,
    Leds,
    Set,
    Fetch,
}

/// All first words of lines.
pub const KEYWORDS: [Keyword; 16] = [
    Keyword::Scan,
    Keyword::Scans,
    Keyword::Poll,
    Keyword::Setup,
    Keyword::Out,
    Keyword::In,
    Keyword::Work,
    Keyword::WorkFault,
    Keyword::Cut,
    Keyword::CutWork,
    Keyword::Reset,
    Keyword::Entry,
    Keyword::Slot,
    Keyword::Leds,
    Keyword::Set,
    Keyword::Fetch,
];

impl Keyword {
    /// The keyword that a word spells.
    pub(crate) fn read(word: &[u8]) -> Option<Keyword> {
        for keyword in KEYWORDS {
            if keyword.spelling() == word {
                return Some(keyword);
            }
        }
        None
    }

    /// Whether these words may follow, by their number.
    pub(crate) fn takes(self, rest: Words<'_>) -> bool {
        let count = rest.count();
        match self {
            Keyword::Scan => count <= MOST_KEYS,
            Keyword::Scans => 1 <= count && count <= MOST_KEYS + 1,
            Keyword::Out => count <= 1,
            Keyword::Setup | Keyword::WorkFault | Keyword::CutWork => count == 1,
            Keyword::Entry | Keyword::Slot => count == 2,
            Keyword::Set => count == 3,
            Keyword::Poll
            | Keyword::In
            | Keyword::Work
            | Keyword::Cut
            | Keyword::Reset
            | Keyword::Leds
            | Keyword::Fetch => count == 0,
        }
    }

    /// The word that spells a keyword.
    pub fn spelling(self) -> &'static [u8] {
        match self {
            Keyword::Scan => b"scan",
            Keyword::Scans => b"scans",
            Keyword::Poll => b"poll",
            Keyword::Setup => b"setup",
            Keyword::Out => b"out",
            Keyword::In => b"in",
            Keyword::Work => b"work",
            Keyword::WorkFault => b"workfault",
            Keyword::Cut => b"cut",
            Keyword::CutWork => b"cutwork",
            Keyword::Reset => b"reset",
            Keyword::Entry => b"entry",
            Keyword::Slot => b"slot",
            Keyword::Leds => b"leds",
            Keyword::Set => b"set",
            Keyword::Fetch => b"fetch",
        }
    }
}

/// What a line says, ready to be run.
#[derive(Debug, PartialEq, Eq)]
pub enum Statement<'t> {
    /// One event.
    One(Action<'t>),
    /// Equal scans, so many.
    Scans { count: NonZeroU16, scan: Scan },
    /// A whole feature transfer that sets an entry, with the flash work that it takes.
    Set { layer: u8, key: u8, code: u16 },
    /// A whole transfer of the report descriptor.
    Fetch,
}

/// A line of one event.
#[derive(Debug, PartialEq, Eq)]
pub enum Action<'t> {
    /// A scan of the matrix.
    Scan(Scan),
    /// A poll of endpoint 1.
    Poll,
    /// A SETUP packet.
    Setup([u8; 8]),
    /// An OUT data packet.
    Out(ArrayVec<u8, 8>),
    /// An IN token.
    In,
    /// A step of the flash work.
    Work,
    /// A step of the flash work whose operation is torn by a mask and fails.
    WorkFault(MaskWord<'t>),
    /// A power cut.
    Cut,
    /// A power cut inside the operation of a step of the flash work, torn by a mask.
    CutWork(MaskWord<'t>),
    /// A bus reset.
    Reset,
    /// A look at an entry of the keymap.
    Entry(LayerNo, KeyNo),
    /// A look at a slot of the flash.
    Slot { page: u8, slot: u16 },
    /// A look at the LEDs.
    Leds,
}

impl<'t> Statement<'t> {
    /// What a line of words says to a device with a flash of this many pages; `None` without a
    /// word. The first word is checked first, then the number of words, then each from the left.
    pub(crate) fn read(
        pages: usize,
        mut rest: Words<'t>,
    ) -> Result<Option<Statement<'t>>, LineFault> {
        let Some(name) = rest.next() else {
            return Ok(None);
        };
        let Some(keyword) = Keyword::read(name) else {
            return Err(LineFault::UnknownWord);
        };
        Ok(Some(Statement::after(pages, keyword, rest)?))
    }

    /// What a line says that begins with this word and goes on with these.
    fn after(pages: usize, keyword: Keyword, rest: Words<'t>) -> Result<Statement<'t>, LineFault> {
        if !keyword.takes(rest) {
            return Err(LineFault::WrongWords);
        }
        Statement::of(pages, keyword, rest)
    }

    /// The same, where so many words may follow.
    fn of(pages: usize, keyword: Keyword, rest: Words<'t>) -> Result<Statement<'t>, LineFault> {
        match keyword {
            Keyword::Scan => scan(rest),
            Keyword::Scans => scans(rest),
            Keyword::Poll => Ok(Statement::One(Action::Poll)),
            Keyword::Setup => setup(rest),
            Keyword::Out => out(rest),
            Keyword::In => Ok(Statement::One(Action::In)),
            Keyword::Work => Ok(Statement::One(Action::Work)),
            Keyword::WorkFault => work_fault(rest),
            Keyword::Cut => Ok(Statement::One(Action::Cut)),
            Keyword::CutWork => cut_work(rest),
            Keyword::Reset => Ok(Statement::One(Action::Reset)),
            Keyword::Entry => entry(rest),
            Keyword::Slot => slot(pages, rest),
            Keyword::Leds => Ok(Statement::One(Action::Leds)),
            Keyword::Set => set(rest),
            Keyword::Fetch => Ok(Statement::Fetch),
        }
    }
}

fn scan(rest: Words<'_>) -> Result<Statement<'_>, LineFault> {
    Ok(Statement::One(Action::Scan(keys(rest)?)))
}

fn scans(mut rest: Words<'_>) -> Result<Statement<'_>, LineFault> {
    let count = count(rest.word())?;
    let scan = keys(rest)?;
    Ok(Statement::Scans { count, scan })
}

fn setup(mut rest: Words<'_>) -> Result<Statement<'_>, LineFault> {
    let packet = bytes(rest.word())?;
    Ok(Statement::One(Action::Setup(packet)))
}

fn out(mut rest: Words<'_>) -> Result<Statement<'_>, LineFault> {
    let Some(word) = rest.next() else {
        return Ok(Statement::One(Action::Out(ArrayVec::new())));
    };
    Ok(Statement::One(Action::Out(packet(word)?)))
}

fn work_fault(mut rest: Words<'_>) -> Result<Statement<'_>, LineFault> {
    let mask = MaskWord::read(rest.word())?;
    Ok(Statement::One(Action::WorkFault(mask)))
}

fn cut_work(mut rest: Words<'_>) -> Result<Statement<'_>, LineFault> {
    let mask = MaskWord::read(rest.word())?;
    Ok(Statement::One(Action::CutWork(mask)))
}

fn entry(mut rest: Words<'_>) -> Result<Statement<'_>, LineFault> {
    let layer = LayerNo::known(number(rest.word(), 4)? as u8);
    let key = KeyNo::known(number(rest.word(), 96)? as u8);
    Ok(Statement::One(Action::Entry(layer, key)))
}

fn slot(pages: usize, mut rest: Words<'_>) -> Result<Statement<'_>, LineFault> {
    let page = number(rest.word(), pages as u32)? as u8;
    let slot = number(rest.word(), PAGE_SLOTS as u32)? as u16;
    Ok(Statement::One(Action::Slot { page, slot }))
}

fn set(mut rest: Words<'_>) -> Result<Statement<'_>, LineFault> {
    let layer = byte(rest.word())?;
    let key = byte(rest.word())?;
    let code = u16::from_be_bytes(bytes(rest.word())?);
    Ok(Statement::Set { layer, key, code })
}

#[allow(unused_imports)]
use wuzhikar::calls::Known as _;

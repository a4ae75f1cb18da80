// Exported from crates/reports/src/input_report.rt by bin/export-rust. Edit that file instead.
//! The bytes of an input report, four to a word.

use crate::parts::reports::bytes::{boot, consumer};
use crate::parts::reports::words::{four, word};
use crate::parts::reports::{Input, Report};
use crate::parts::layers::Usages;

/// The bytes of an input report. They lie in words, the first byte in the low bits, since a chip
/// compares and copies those.
#[derive(Debug)]
#[derive(Clone, Copy)]
pub struct InputReport {
    input: Input,
    words: [u32; 6],
}

impl InputReport {
    /// Zeros, where memory waits for a keyboard to start there.
    pub(crate) const UNSTARTED: Self = InputReport { input: Input::UNSTARTED, words: [0; 6] };
}

impl InputReport {
    /// The bytes of a report for no usages.
    pub(crate) fn unused(input: Input) -> InputReport {
        match input {
            Input::Boot => InputReport {
                input,
                words: [0; 6],
            },
            Input::One => InputReport {
                input,
                words: [1, 0, 0, 0, 0, 0],
            },
            Input::Two => InputReport {
                input,
                words: [2, 0, 0, 0, 0, 0],
            },
        }
    }

    /// The boot report of these usages.
    pub fn boot(usages: &Usages) -> InputReport {
        let [a, b, c, d, e, f, g, h] = boot(usages);
        InputReport {
            input: Input::Boot,
            words: [word(a, b, c, d), word(e, f, g, h), 0, 0, 0, 0],
        }
    }

    /// The report of ID 1 of these usages.
    pub fn bitmap(usages: &Usages) -> InputReport {
        let [a, b, c, d, e, f, _, _] = usages.key_words();
        InputReport {
            input: Input::One,
            words: [
                first_word(usages.modifiers(), *a),
                across(*a, *b),
                across(*b, *c),
                across(*c, *d),
                across(*d, *e),
                across(*e, *f % 0x20),
            ],
        }
    }

    /// The report of ID 2 of these usages.
    pub fn consumer(usages: &Usages) -> InputReport {
        let [a, b, c, d, e, f, g, h, i] = consumer(usages);
        InputReport {
            input: Input::Two,
            words: [
                word(a, b, c, d),
                word(e, f, g, h),
                word(i, 0, 0, 0),
                0,
                0,
                0,
            ],
        }
    }

    /// The same report once more.
    pub(crate) fn copy(&self) -> InputReport {
        InputReport {
            input: self.input,
            words: self.words,
        }
    }

    /// Which report it is.
    pub(crate) fn input(&self) -> Input {
        self.input
    }

    /// Whether the bytes of two reports are the same.
    pub(crate) fn is_same(&self, other: &InputReport) -> bool {
        let [a, b, c, d, e, f] = &self.words;
        let [g, h, i, j, k, l] = &other.words;
        if *a != *g {
            return false;
        }
        if *b != *h {
            return false;
        }
        if *c != *i {
            return false;
        }
        if *d != *j {
            return false;
        }
        if *e != *k {
            return false;
        }
        if *f != *l {
            return false;
        }
        are_one(self.input, other.input)
    }

    /// Its bytes, and zeros behind them.
    pub(crate) fn bytes(&self) -> [u8; 24] {
        let [a, b, c, d, e, f] = &self.words;
        let [a0, a1, a2, a3] = four(*a);
        let [b0, b1, b2, b3] = four(*b);
        let [c0, c1, c2, c3] = four(*c);
        let [d0, d1, d2, d3] = four(*d);
        let [e0, e1, e2, e3] = four(*e);
        let [f0, f1, f2, f3] = four(*f);
        [
            a0, a1, a2, a3, b0, b1, b2, b3, c0, c1, c2, c3, d0, d1, d2, d3, e0, e1, e2, e3, f0, f1,
            f2, f3,
        ]
    }

    /// How many bytes it has.
    pub(crate) fn length(&self) -> u8 {
        match self.input {
            Input::Boot => 8,
            Input::One => 23,
            Input::Two => 9,
        }
    }

    /// Writes its bytes into a buffer, from the start, and returns how many they are.
    pub(crate) fn fill(&self, report: &mut [u8; 23]) -> u8 {
        *report = self.twenty_three();
        self.length()
    }

    /// The words that its bytes lie in.
    pub fn words(&self) -> [u32; 6] {
        self.words
    }

    /// The same bytes as a report.
    #[inline(never)]
    pub(crate) fn report(&self) -> Report {
        let bytes = self.bytes();
        report_of(&bytes[..usize::from(self.length())])
    }

    /// Its bytes, and zeros behind them where they are not 23.
    pub(crate) fn twenty_three(&self) -> [u8; 23] {
        let _input = &self.input;
        let [
            a,
            b,
            c,
            d,
            e,
            f,
            g,
            h,
            i,
            j,
            k,
            l,
            m,
            n,
            o,
            p,
            q,
            r,
            s,
            t,
            u,
            v,
            w,
            _,
        ] = self.bytes();
        [
            a, b, c, d, e, f, g, h, i, j, k, l, m, n, o, p, q, r, s, t, u, v, w,
        ]
    }
}

/// Whether two reports are one.
fn are_one(a: Input, b: Input) -> bool {
    match a {
        Input::Boot => matches!(b, Input::Boot),
        Input::One => matches!(b, Input::One),
        Input::Two => matches!(b, Input::Two),
    }
}

/// The first word of the report of ID 1, from the modifiers and the usages 00h to 1Fh.
fn first_word(modifiers: u8, low: u32) -> u32 {
    0x01 + 0x100 * modifiers as u32 + 0x1_0000 * (low / 0x10 % 0x1_0000)
}

/// A further word of it: the 12 high bits of one word of usages and the 20 low ones of the next.
fn across(low: u32, high: u32) -> u32 {
    low / 0x10_0000 + 0x1000 * (high % 0x10_0000)
}

/// A report of these bytes.
fn report_of(bytes: &[u8]) -> Report {
    let mut report = Report::new();
    match report.try_extend_from_slice(bytes) {
        Ok(()) => report,
        Err(_) => unreachable!(),
    }
}

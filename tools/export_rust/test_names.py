"""Tests of check_names.py: what it finds in docs, and what it lets stand."""

import sys
import unittest

sys.dont_write_bytecode = True

from check_names import Names, fault, read_file

CODE = """
pub struct Log {
    pub room: u8,
    words: u8,
}

impl Log {
    pub fn step(&mut self, offset: usize) {}
    pub(crate) fn seal(&self) {}
}

pub enum Step { Idle, Failed(u8) }

impl core::fmt::Display for Log {
    fn fmt(&self) {}
}

pub trait NorFlash {
    const UNIT: usize;
    fn erase_page(&mut self);
}

pub const LENGTH: usize = 8;

pub type PlainLog = crate::LogOf<Plain>;

pub struct LogOf<P>(P);

impl<P> LogOf<P> {
    pub fn mount() {}
}
"""


def why(span, shown=True, crate="wuzhikar-log"):
    """Why a span in the docs of the code above names nothing."""
    names = Names()
    read_file(names, CODE)
    return fault(names, crate, span, shown)


class Spans(unittest.TestCase):
    def test_what_is_there_is_found(self):
        for span in ("Log", "Log::step", "Log::step()", "step", "offset", "Log::room", "Step::Idle", "Step::Failed(n)", "LENGTH",
                     "NorFlash::erase_page", "NorFlash::UNIT", "PlainLog::mount", "crate::Log", "None", "wuzhikar_log"):
            with self.subTest(span):
                self.assertEqual(why(span), "")

    def test_what_is_not_there_is_reported(self):
        for span in ("Logs", "Log::steps", "Log::offset", "Step::Done", "steps()", "theorems::f", "NorFlash::UNITS", "PlainLog::step", "world"):
            with self.subTest(span):
                self.assertIn("nothing", why(span))

    def test_a_user_is_told_of_public_calls_alone(self):
        for span in ("Log::seal", "Log::words"):
            with self.subTest(span):
                self.assertIn("not public", why(span))
                self.assertEqual(why(span, shown=False), "")

    def test_what_is_no_name_is_let_stand(self):
        for span in ("05 01", "--pages", "fault line 2", "0x55", "a + b", "cargo test"):
            with self.subTest(span):
                self.assertEqual(why(span), "")


if __name__ == "__main__":
    unittest.main()

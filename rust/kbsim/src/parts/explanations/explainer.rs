// Exported from crates/explanations/src/explainer.rt by bin/export-rust. Edit that file instead.
//! What explains the lines of a run.

use crate::parts::explanations::edges::KeyChanges;
use crate::parts::explanations::explanation::Explanation;
use crate::parts::explanations::operation::{Made, Operation};
use wuzhikar::parts::debounce::Debouncer;
use wuzhikar_log::parts::flash_model::SimFlash;
use crate::parts::kbsim::{Answer, Line, Outcome, Sink, Step, World};
use wuzhikar_log::parts::page_turnover::Log;
use crate::parts::script::{Action, Statement};
use core::fmt::Display;

/// Where sentences go.
pub trait Tell {
    /// Says a sentence.
    fn tell<T: Display>(&mut self, sentence: &T);
}

/// A sink that says of each line of a run what its answer means.
#[derive(Debug)]
pub struct Explainer<T> {
    sentences: T,
    /// The active page of the flash.
    active: Option<usize>,
    /// The flash operations of the line that is run.
    made: Made,
    debouncer: Debouncer,
    /// How many bytes the latest request has read; none where it reads nothing.
    read: Option<u16>,
}

impl<T: Tell> Explainer<T> {
    /// Before the first line of a run on this flash. The sentences go to this place.
    pub fn new(flash: &SimFlash, sentences: T) -> Explainer<T> {
        Explainer {
            sentences,
            active: active_page(flash),
            made: Made::NONE,
            debouncer: Debouncer::new(),
            read: None,
        }
    }
}

impl<T: Tell> Sink for Explainer<T> {
    fn hears(&self) -> bool {
        true
    }

    fn step(&mut self, step: &Step<'_>) {
        if let Some(operation) = step.operation {
            self.made.add(Operation::of(operation, self.active));
            self.active = active_page(step.flash);
        }
    }

    fn line(&mut self, line: &Line<'_>, outcome: &Outcome, world: &World) {
        let statement = &line.statement;
        let read = read_before(self.read, statement);
        let changes = changes_of(&mut self.debouncer, statement);
        let explanation = Explanation {
            number: line.number,
            statement,
            outcome,
            made: self.made,
            changes,
            read,
            flash: world.flash(),
        };
        self.sentences.tell(&explanation);
        self.read = read_after(read, outcome);
        self.made = Made::NONE;
    }
}

/// The active page of a flash, if any.
fn active_page(flash: &SimFlash) -> Option<usize> {
    Log::mount(flash).active().map(|(page, _)| page)
}

/// How many bytes the latest request had read before a line's answer: a SETUP packet begins another one, which reads where
/// bit 7 of bmRequestType is set and wLength is not 0 (USB 2.0 sections 9.3.1 and 9.3.5), and a whole transfer ends it.
fn read_before(read: Option<u16>, statement: &Statement<'_>) -> Option<u16> {
    match statement {
        Statement::One(Action::Setup([kind, _, _, _, _, _, low, high])) => {
            if *kind >= 0x80 && (*low != 0 || *high != 0) {
                Some(0)
            } else {
                None
            }
        }
        Statement::Set { .. } | Statement::Fetch => None,
        Statement::One(_) | Statement::Scans { .. } => read,
    }
}

/// How many bytes were read after an answer.
fn read_after(read: Option<u16>, outcome: &Outcome) -> Option<u16> {
    match (read, outcome) {
        (Some(count), Outcome::Answered(Answer::Packet(bytes))) => {
            Some(count.saturating_add(bytes.len() as u16))
        }
        _ => read,
    }
}

/// The keys that a line pressed and released. A power cut leaves no key pressed.
fn changes_of(debouncer: &mut Debouncer, statement: &Statement<'_>) -> KeyChanges {
    match statement {
        Statement::One(Action::Scan(scan)) => KeyChanges::of(debouncer, *scan, 1),
        Statement::Scans { count, scan } => KeyChanges::of(debouncer, *scan, count.get()),
        Statement::One(Action::Cut | Action::CutWork(_)) => {
            *debouncer = Debouncer::new();
            KeyChanges::NONE
        }
        _ => KeyChanges::NONE,
    }
}

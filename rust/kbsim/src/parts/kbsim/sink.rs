// Exported from crates/kbsim/src/sink.rt by bin/export-rust. Edit that file instead.
//! What hears of the steps of a run.

use crate::parts::kbsim::outcome::Outcome;
use crate::parts::kbsim::{Answer, Event, World};
use wuzhikar_log::parts::flash_model::SimFlash;
use crate::parts::script::Line;
use crate::parts::world::Operation;

/// An event of a run.
#[derive(Debug)]
pub struct Step<'s> {
    /// The event.
    pub event: &'s Event,
    /// What it was answered.
    pub answer: &'s Answer,
    /// The flash operation that a step of the flash work asked for, if any.
    pub operation: Option<Operation>,
    /// The flash after it.
    pub flash: &'s SimFlash,
}

/// What hears of each event and each line of a run, in their order.
pub trait Sink {
    /// Whether it hears of lines. If so, the writer is given each line before the sink hears of it.
    fn hears(&self) -> bool;

    /// Hears of an event of the line that is run.
    fn step(&mut self, step: &Step<'_>);

    /// Hears of a line that was run and printed, and of the device after it.
    fn line(&mut self, line: &Line<'_>, outcome: &Outcome, world: &World);
}

/// A sink that hears nothing.
#[derive(Debug)]
pub struct Silent;

impl Sink for Silent {
    fn hears(&self) -> bool {
        false
    }

    fn step(&mut self, _step: &Step<'_>) {}

    fn line(&mut self, _line: &Line<'_>, _outcome: &Outcome, _world: &World) {}
}

/// Tells a sink of an event that was taken, and of its answer.
pub(crate) fn tell_step<S: Sink>(sink: &mut S, event: &Event, answers: &[Answer], world: &World) {
    let Some(answer) = answers.last() else {
        return;
    };
    let operation = match event {
        Event::Work | Event::WorkFault(_) | Event::CutInWork(_) => world.operation(),
        _ => None,
    };
    sink.step(&Step {
        event,
        answer,
        operation,
        flash: world.flash(),
    });
}

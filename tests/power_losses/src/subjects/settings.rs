// SPDX-License-Identifier: MIT OR Apache-2.0
//! Values under ids: changed one by one, in transactions, and compacted.

use std::collections::BTreeMap;
use std::marker::PhantomData;

use wuzhikar_log::{Change, FlashSettings, NorFlash, SettingsError, Value};

use super::Subject;
use crate::random::Random;
use crate::runner::{Broken, Stage};

/// What ids have.
pub type Values = BTreeMap<u16, Vec<u8>>;

/// A way to call settings.
pub trait Door {
    /// What they are called.
    const NAME: &'static str;
    /// Settings on a flash.
    type On<F: NorFlash>: Calls<F>;
}

/// The calls of settings on a flash.
pub trait Calls<F>: Sized {
    fn mount(flash: F) -> Self;
    fn all(&mut self) -> Values;
    fn get(&mut self, id: u16) -> Option<Vec<u8>>;
    /// Makes a change, all of several, or a compaction for none.
    fn change(&mut self, changes: &[Change]) -> Result<(), SettingsError>;
    fn into_flash(self) -> F;
}

/// The calls of `wuzhikar-log`.
pub enum InRust {}

impl Door for InRust {
    const NAME: &'static str = "settings";
    type On<F: NorFlash> = FlashSettings<F>;
}

impl<F: NorFlash> Calls<F> for FlashSettings<F> {
    fn mount(flash: F) -> Self {
        FlashSettings::mount(flash).expect("2 to 8 pages")
    }

    fn all(&mut self) -> Values {
        self.iter().map(|(id, value)| (id, value.as_bytes().to_vec())).collect()
    }

    fn get(&mut self, id: u16) -> Option<Vec<u8>> {
        let value = FlashSettings::get(self, id).map(|value| value.as_bytes().to_vec());
        assert_eq!(self.contains(id), value.is_some());
        value
    }

    fn change(&mut self, changes: &[Change]) -> Result<(), SettingsError> {
        match changes {
            [] => self.compact(),
            [Change { id, value: Some(value) }] => self.set(*id, value.as_bytes()),
            [Change { id, value: None }] => self.remove(*id),
            changes => self.transaction(changes),
        }
    }

    fn into_flash(self) -> F {
        FlashSettings::into_flash(self)
    }
}

/// What every id has to have, and the changes that the latest loss of power came into.
pub struct Settings<D = InRust> {
    door: PhantomData<D>,
    stored: Values,
    under_way: Vec<Change>,
    /// How many ids are in use.
    ids: usize,
}

impl<D: Door> Settings<D> {
    /// The settings after a start: what was stored, or that with all changes that were under way.
    fn starts<F: NorFlash>(&mut self, settings: &mut D::On<F>) -> Result<(), Broken> {
        let read = settings.all();
        let changed = changed(&self.stored, &self.under_way);
        self.under_way.clear();
        if read != self.stored && read != changed {
            return Err(Broken::Lost(format!("{read:?}, and {:?} was stored", self.stored)));
        }
        self.stored = read;
        for id in 0..self.ids as u16 {
            if settings.get(id) != self.stored.get(&id).cloned() {
                return Err(Broken::Wrong(format!("id {id} is not what is listed")));
            }
        }
        Ok(())
    }

    fn draw(&self, random: &mut Random) -> Change {
        let most = [4, 12, 12, 64][random.below(4)];
        let bytes: Vec<u8> = (0..random.below(most + 1)).map(|_| random.next() as u8).collect();
        let id = random.below(self.ids) as u16;
        Change { id, value: if random.below(8) == 0 { None } else { Value::new(&bytes) } }
    }

    /// A change, a transaction or a compaction, and what it answers.
    fn change<F: NorFlash>(&mut self, settings: &mut D::On<F>, stage: &mut Stage) -> Result<(), Broken> {
        let faults = stage.power.faults();
        let count = [0, 2, 3].get(stage.random.below(24)).copied().unwrap_or(1);
        let changes: Vec<Change> = (0..count).map(|_| self.draw(&mut stage.random)).collect();
        let answer = settings.change(&changes);
        if stage.power.is_off() {
            self.under_way = changes;
            return Ok(());
        }
        match answer {
            Ok(()) => {
                stage.tally.stored += 1;
                self.stored = changed(&self.stored, &changes);
            }
            Err(SettingsError::Fault) if stage.power.faults() > faults => stage.tally.failed += 1,
            Err(error) => return Err(Broken::Refused(error.to_string())),
        }
        let id = changes.first().map_or(0, |change| change.id);
        if settings.get(id) == self.stored.get(&id).cloned() { Ok(()) } else { Err(Broken::Wrong(format!("id {id}"))) }
    }
}

/// Returns the values of all ids after these changes.
fn changed(values: &Values, changes: &[Change]) -> Values {
    let mut values = values.clone();
    for change in changes {
        match &change.value {
            Some(value) => values.insert(change.id, value.as_bytes().to_vec()),
            None => values.remove(&change.id),
        };
    }
    values
}

impl<D: Door> Subject for Settings<D> {
    const NAME: &'static str = D::NAME;

    fn new(random: &mut Random) -> Settings<D> {
        let ids = [1, 4, 12][random.below(3)];
        Settings { door: PhantomData, stored: Values::new(), under_way: Vec::new(), ids }
    }

    fn session<F: NorFlash>(&mut self, flash: F, stage: &mut Stage) -> Result<F, Broken> {
        let mut settings = D::On::mount(flash);
        self.starts(&mut settings)?;
        while !stage.power.is_off() {
            self.change(&mut settings, stage)?;
        }
        Ok(settings.into_flash())
    }
}

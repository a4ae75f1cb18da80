// SPDX-License-Identifier: MIT OR Apache-2.0
//! Values of up to 1,024 bytes on all pages: changed one by one, and in transactions.

use std::collections::BTreeMap;
use std::marker::PhantomData;

use wuzhikar_log::NorFlash;
use wuzhikar_log::paged::{Change, PagedSettings, SettingsError};

use super::{InRust, Subject};
use crate::random::Random;
use crate::runner::{Broken, Stage};

/// A new value for an id, or none.
pub type Given = (u16, Option<Vec<u8>>);

/// A way to call settings on all pages.
pub trait PagedDoor {
    /// What they are called.
    const NAME: &'static str;
    /// Settings on a flash.
    type On<F: NorFlash>: PagedCalls<F>;
}

/// The calls of settings on all pages of a flash.
pub trait PagedCalls<F>: Sized {
    fn mount(flash: F) -> Self;
    fn pages(&self) -> usize;
    fn ids(&self) -> Vec<u16>;
    fn read(&self, id: u16) -> Option<Vec<u8>>;
    fn change(&mut self, changes: &[Given]) -> Result<(), SettingsError>;
    fn into_flash(self) -> F;
}

impl PagedDoor for InRust {
    const NAME: &'static str = "settings on all pages";
    type On<F: NorFlash> = PagedSettings<F>;
}

impl<F: NorFlash> PagedCalls<F> for PagedSettings<F> {
    fn mount(flash: F) -> Self {
        PagedSettings::mount(flash).expect("2 to 8 pages")
    }

    fn pages(&self) -> usize {
        self.flash().pages()
    }

    fn ids(&self) -> Vec<u16> {
        PagedSettings::ids(self).collect()
    }

    fn read(&self, id: u16) -> Option<Vec<u8>> {
        self.get(id, &mut [0; 1024]).expect("1,024 bytes").map(<[u8]>::to_vec)
    }

    fn change(&mut self, changes: &[Given]) -> Result<(), SettingsError> {
        match changes {
            [(id, Some(value))] => self.set(*id, value),
            [(id, None)] => self.remove(*id),
            changes => {
                let lent: Vec<Change> = changes.iter().map(|(id, value)| Change { id: *id, value: value.as_deref() }).collect();
                self.transaction(&lent)
            }
        }
    }

    fn into_flash(self) -> F {
        PagedSettings::into_flash(self)
    }
}

/// The most slots of a page that its values take.
const ROOM: usize = 510;

/// What every id has to have, and the changes that the latest loss of power came into.
pub struct Paged<D = InRust> {
    door: PhantomData<D>,
    stored: BTreeMap<u16, Vec<u8>>,
    under_way: Vec<Given>,
    /// How many ids are in use, and the most bytes that a value has.
    ids: usize,
    most: usize,
}

/// How many slots a value takes.
fn slots(value: &[u8]) -> usize {
    1 + value.len().div_ceil(3)
}

/// Gives ids their new values.
fn apply(values: &mut BTreeMap<u16, Vec<u8>>, changes: &[Given]) {
    for (id, value) in changes {
        match value {
            Some(value) => values.insert(*id, value.clone()),
            None => values.remove(id),
        };
    }
}

impl<D: PagedDoor> Paged<D> {
    /// What a start finds: what was stored, or that with all changes that were under way.
    fn starts<F: NorFlash>(&mut self, settings: &D::On<F>) -> Result<(), Broken> {
        let ids = settings.ids();
        let found: BTreeMap<u16, Vec<u8>> = ids.iter().filter_map(|&id| Some((id, settings.read(id)?))).collect();
        if found.len() != ids.len() {
            return Err(Broken::Wrong(format!("listed are {ids:?}")));
        }
        let mut changed = self.stored.clone();
        apply(&mut changed, &std::mem::take(&mut self.under_way));
        if found != self.stored && found != changed {
            return Err(Broken::Lost(format!("{found:?}, and {:?} was stored", self.stored)));
        }
        self.stored = found;
        match (0..self.ids as u16).find(|&id| settings.read(id) != self.stored.get(&id).cloned()) {
            Some(id) => Err(Broken::Wrong(format!("id {id} is not what is listed"))),
            None => Ok(()),
        }
    }

    fn draw(&self, random: &mut Random) -> Given {
        let most = [4, 4, 4, 12, 12, self.most][random.below(6)];
        let bytes = (0..random.below(most + 1)).map(|_| random.next() as u8).collect();
        (random.below(self.ids) as u16, if random.below(6) == 0 { None } else { Some(bytes) })
    }

    /// Whether the changes may find no room.
    fn may_be_full(&self, changes: &[Given], pages: usize) -> bool {
        let alive: usize = self.stored.values().map(|value| slots(value)).sum();
        let words: usize = changes.iter().map(|(_, value)| value.as_ref().map_or(1, |value| slots(value))).sum();
        let removes_one = matches!(changes, [(_, None)]);
        !removes_one && (words > ROOM || alive > (pages - 1) * (ROOM - words))
    }

    /// A change or a transaction, and what it answers.
    fn change<F: NorFlash>(&mut self, settings: &mut D::On<F>, stage: &mut Stage) -> Result<(), Broken> {
        let faults = stage.power.faults();
        let count = [2, 3, 5].get(stage.random.below(12)).copied().unwrap_or(1);
        let changes: Vec<Given> = (0..count).map(|_| self.draw(&mut stage.random)).collect();
        let answer = settings.change(&changes);
        if stage.power.is_off() {
            self.under_way = changes;
            return Ok(());
        }
        match answer {
            Ok(()) => {
                stage.tally.stored += 1;
                apply(&mut self.stored, &changes);
            }
            Err(SettingsError::Fault) if stage.power.faults() > faults => stage.tally.failed += 1,
            Err(SettingsError::Full) if self.may_be_full(&changes, settings.pages()) => {
                self.stored.keys().next().copied().map_or(Ok(()), |id| self.removed(settings, id, stage))?;
            }
            Err(error) => return Err(Broken::Refused(error.to_string())),
        }
        let id = changes[0].0;
        if stage.power.is_off() || settings.read(id) == self.stored.get(&id).cloned() {
            Ok(())
        } else {
            Err(Broken::Wrong(format!("id {id}")))
        }
    }

    /// Removes an id, for which there is always room.
    fn removed<F: NorFlash>(&mut self, settings: &mut D::On<F>, id: u16, stage: &mut Stage) -> Result<(), Broken> {
        let answer = settings.change(&[(id, None)]);
        if stage.power.is_off() {
            self.under_way = vec![(id, None)];
            return Ok(());
        }
        match answer {
            Ok(()) => drop(self.stored.remove(&id)),
            Err(SettingsError::Fault) => stage.tally.failed += 1,
            Err(error) => return Err(Broken::Refused(error.to_string())),
        }
        Ok(())
    }
}

impl<D: PagedDoor> Subject for Paged<D> {
    const NAME: &'static str = D::NAME;

    fn new(random: &mut Random) -> Paged<D> {
        let (ids, most) = ([1, 4, 12, 60][random.below(4)], [12, 64, 64, 1024][random.below(4)]);
        Paged { door: PhantomData, stored: BTreeMap::new(), under_way: Vec::new(), ids, most }
    }

    fn session<F: NorFlash>(&mut self, flash: F, stage: &mut Stage) -> Result<F, Broken> {
        let mut settings = D::On::mount(flash);
        self.starts(&settings)?;
        while !stage.power.is_off() {
            self.change(&mut settings, stage)?;
        }
        Ok(settings.into_flash())
    }
}

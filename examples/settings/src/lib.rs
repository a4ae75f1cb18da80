// SPDX-License-Identifier: MIT OR Apache-2.0
//! The settings of a lamp with Wi-Fi, in NOR flash: each outlives every loss of power, and a network's name and password
//! are stored together or not at all. No allocator is used.
#![no_std]
#![forbid(unsafe_code)]

pub mod stm32g0;

use wuzhikar_log::{Change, FlashSettings, NorFlash, PageCount, SettingsError, Value};

/// The ids of the settings. Never give one another meaning in a product in the field.
const NAME: u16 = 1;
const PASSWORD: u16 = 2;
const CHANNEL: u16 = 3;
const LIT: u16 = 4;
const ADDRESS: u16 = 5;

/// A network that the lamp joins.
#[derive(Clone, Debug, PartialEq, Eq)]
pub struct Network {
    name: Value,
    password: Value,
}

impl Network {
    /// The name, of at most 64 bytes.
    pub fn name(&self) -> &str {
        self.name.as_str().unwrap_or_default()
    }

    /// The password, of at most 64 bytes.
    pub fn password(&self) -> &str {
        self.password.as_str().unwrap_or_default()
    }
}

/// The settings of a lamp.
#[derive(Debug)]
pub struct Lamp<F>(FlashSettings<F>);

impl<F: NorFlash> Lamp<F> {
    /// Reads what is in a flash of 2 to 8 pages.
    pub fn mount(flash: F) -> Result<Lamp<F>, PageCount> {
        Ok(Lamp(FlashSettings::mount(flash)?))
    }

    /// The network, if there is one.
    pub fn network(&self) -> Option<Network> {
        Some(Network { name: self.0.get(NAME)?, password: self.0.get(PASSWORD)? })
    }

    /// Stores a network: name and password together.
    pub fn join(&mut self, name: &str, password: &str) -> Result<(), SettingsError> {
        self.0.transaction(&[
            Change { id: NAME, value: Some(name.try_into()?) },
            Change { id: PASSWORD, value: Some(password.try_into()?) },
        ])
    }

    /// Forgets the network: name and password together.
    pub fn leave(&mut self) -> Result<(), SettingsError> {
        self.0.transaction(&[Change { id: NAME, value: None }, Change { id: PASSWORD, value: None }])
    }

    /// The channel, or 1.
    pub fn channel(&self) -> u8 {
        self.0.get(CHANNEL).and_then(|value| value.as_u8()).unwrap_or(1)
    }

    pub fn set_channel(&mut self, channel: u8) -> Result<(), SettingsError> {
        self.0.set(CHANNEL, Value::from(channel))
    }

    /// Whether the lamp is lit after a start.
    pub fn is_lit(&self) -> bool {
        self.0.get(LIT).and_then(|value| value.as_bool()).unwrap_or(false)
    }

    pub fn set_lit(&mut self, lit: bool) -> Result<(), SettingsError> {
        self.0.set(LIT, Value::from(lit))
    }

    /// The address, if one was given.
    pub fn address(&self) -> Option<[u8; 4]> {
        self.0.get(ADDRESS)?.as_bytes().try_into().ok()
    }

    pub fn set_address(&mut self, address: [u8; 4]) -> Result<(), SettingsError> {
        self.0.set(ADDRESS, address)
    }

    /// All settings, with their flash.
    pub fn settings(&mut self) -> &mut FlashSettings<F> {
        &mut self.0
    }

    /// Gives up the settings, and the flash as it is.
    pub fn into_flash(self) -> F {
        self.0.into_flash()
    }
}

// SPDX-License-Identifier: MIT OR Apache-2.0
//! A lamp on a flash in memory that loses its power twice.
#![forbid(unsafe_code)]

use settings::Lamp;
use wuzhikar_log::{Mask, NorFlash, SimFlash};

fn main() -> Result<(), Box<dyn std::error::Error>> {
    // On a chip `SlotFlash` stands here, over the driver of its flash.
    let mut lamp = Lamp::mount(SimFlash::blank(2)?)?;
    lamp.join("home", "sesame")?;
    lamp.set_channel(6)?;
    lamp.set_lit(true)?;
    lamp.set_address([10, 0, 0, 7])?;
    // The flash is all that a loss of power leaves.
    let mut flash = lamp.into_flash();
    show(&Lamp::mount(flash.clone())?);
    // The next operation is torn: some bits of it are written.
    flash.fault_next(Mask::from_iter([0b1010_0101]));
    let mut lamp = Lamp::mount(flash)?;
    println!("join office: {}", lamp.join("office", "a longer password").unwrap_err());
    show(&Lamp::mount(lamp.into_flash())?);
    Ok(())
}

fn show<F: NorFlash>(lamp: &Lamp<F>) {
    let network = lamp.network().map_or("no network".into(), |n| format!("{} with {}", n.name(), n.password()));
    println!("{network}, channel {}, lit {}, address {:?}", lamp.channel(), lamp.is_lit(), lamp.address());
}

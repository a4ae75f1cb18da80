// SPDX-License-Identifier: MIT OR Apache-2.0
//! Texts of a descriptor in each form, digits for `parse`, and scripts: refused by name or taken, and taken alike again.
#![no_main]

use kbsim::texts::{Form, taken};

fuzz::target!(text);

fn text(bytes: &[u8]) {
    for form in Form::ALL {
        if let Err(fault) = form.read(bytes) {
            assert!(!fault.sentence(bytes).is_empty());
        }
    }
    if let Ok((form, read)) = taken(bytes) {
        assert_eq!(form.read(bytes), Ok(read), "{form:?} is named, and reads otherwise");
    }
    let mut lines = Vec::new();
    let _told = kbsim::parse_text(&mut &*bytes, &mut lines);
    let pages = 2 + bytes.len() % 7;
    let _told = kbsim::run_script(pages, &mut &*bytes, &mut lines);
}

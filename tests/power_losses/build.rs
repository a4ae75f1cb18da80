// SPDX-License-Identifier: MIT OR Apache-2.0
//! Writes the steady adapter as it is, and once without each of its rules: src/wrong/steady.rs tries them.

use std::path::Path;
use std::{env, fs};

/// The rule that is broken, and what stands in place of what.
const WRONG: &[(&str, &[(&str, &str)])] = &[
    ("nothing", &[]),
    ("settles_in_place", &[("move_page(flash, layout, page, None)", "settle_in_place(flash, layout, page)")]),
    (
        "bumps_page_by_page",
        &[(
            "    bump_all(flash, &mut layout)?;\n    settle_opened(flash, &mut layout)?;\n",
            "    for page in (0..pages).rev() {\n        bump_where_begun(flash, &mut layout, page)?;
        settle_where_opened(flash, &mut layout, page)?;\n    }\n",
        )],
    ),
    (
        "wipes_before_it_bumps",
        &[("find(flash, pages)?;\n", "find(flash, pages)?;\n    super::moving::prepare(flash, &layout)?;\n")],
    ),
    ("bumps_by_one", &[("number: held.number + 2", "number: held.number + 1")]),
    ("trusts_a_blank_read", &[("    erase_marks(flash, layout.spare)?;\n", TRUSTS)]),
    (
        "leaves_out_open",
        &[("    program_mark(flash, layout.held[page].page as usize, OPEN, ZEROS)?;\n", "")],
    ),
    ("leaves_out_about", &[("is_done && !is_about", "{ let _ = is_about; is_done }")]),
    ("leaves_out_done", &[("is_done && !is_about", "{ let _ = is_done; !is_about }")]),
    (
        "programs_a_claim_once",
        &[(
            "    program_mark(
        flash,
        at,
        claim(held.index as u16),
        claim_bytes(layout.place(at), page, held.number),
    )\n",
            "    let _ = page;\n    Ok(())\n",
        )],
    ),
    ("tells_a_fault_unsettled", &[("Err(settle(flash, layout, page, slot))", "Err(Failed::Torn)")]),
    (
        "tells_a_fault_in_doubt",
        &[
            ("            flash.give_up();\n            Err(Failed::Lost)\n", "            Err(Failed::Torn)\n"),
            ("                self.is_lost = true;\n                self.flash.give_up();\n", ""),
        ],
    ),
    ("bumps_forward", &[("pages - 1 - behind)?;", "behind)?;")]),
    ("bumps_without_about", &[("    program_mark(flash, at, about(held.index as u16), ZEROS)?;\n", "")]),
    (
        "switches_without_about",
        &[("    program_mark(flash, old.page as usize, about(old.index as u16), ZEROS)?;\n", "")],
    ),
    ("renews_no_marks", &[("< flash.triples() / 2", "< flash.triples()")]),
    ("programs_in_place", &[("    if held != BLANK {", "    if false {")]),
    ("makes_over_claims", &[("    clear_claims(flash, pages - 1)?;\n", "")]),
    ("takes_over_unsettled", &[("        program_mark(flash, at, OPEN, ZEROS)\n", "        Ok(())\n")]),
    ("formats_at_once", &[("Ok(layout) => erase_each(flash, layout),", "Ok(_) => make(flash, false),")]),
    ("takes_other_marks", &[("if word.place != layout.place(at) {", "if false {")]),
];

const TRUSTS: &str = "    if (0..PAGE_SLOTS).all(|slot| flash.read_slot(layout.spare, slot) == BLANK)
        && (0..=3 * flash.triples()).all(|mark| flash.read_mark(layout.spare, mark) == BLANK)
    {
        return Ok(());
    }
    erase_marks(flash, layout.spare)?;
";

/// A page is programmed again with what it reads as.
const IN_PLACE: &str = "
fn settle_in_place<F: MarkedFlash>(flash: &mut F, layout: &mut Layout, page: usize) -> Result<(), Stop> {
    let at = usize::from(layout.held[page].page);
    for slot in 0..wuzhikar_log::PAGE_SLOTS {
        let bytes = flash.read_slot(at, slot);
        if bytes != BLANK {
            super::moving::program_slot(flash, at, slot, bytes)?;
        }
    }
    Ok(())
}
";

const CRATE: &str = "../../rust/wuzhikar-log/src";

/// The modules of the adapter, below the trait of its flash.
const MODULES: [&str; 8] = ["errors", "layout", "marks", "moving", "starting", "making", "writing", "steady"];

/// A file of the crate, without the lines that a module inside another file may not have.
fn source(name: &str) -> String {
    let path = format!("{CRATE}/{name}");
    println!("cargo::rerun-if-changed={path}");
    let text = fs::read_to_string(&path).unwrap_or_else(|fault| panic!("{path}: {fault}"));
    let lines: Vec<&str> = text.lines().filter(|line| !line.starts_with("//!")).collect();
    lines.join("\n") + "\n"
}

fn replaced(text: &str, old: &str, new: &str) -> String {
    assert!(text.contains(old), "the adapter has no {old:?}");
    text.replace(old, new)
}

fn main() {
    println!("cargo::rerun-if-changed=build.rs");
    let mut text = String::from(
        "pub use errors::{MountError, Unmounted};\npub use steady::SteadyFlash;\npub use wuzhikar_log::MarkedFlash;\n",
    );
    for name in MODULES {
        let mut module = source(&format!("parts/steady_flash/{name}.rs"));
        if name == "starting" {
            module += IN_PLACE;
        }
        text += &format!("pub mod {name} {{\n{module}}}\n");
    }
    text += &format!("mod face {{\n{}}}\n", replaced(&source("steady_flash.rs"), "#[cfg(test)]\nmod tests;\n", ""));
    text = replaced(&text, "crate::parts::flash_model", "wuzhikar_log");
    let mut modules = String::new();
    for &(rule, changes) in WRONG {
        let wrong = changes.iter().fold(text.clone(), |text, (old, new)| replaced(&text, old, new));
        let wrong = replaced(&wrong, "crate::parts::steady_flash", &format!("crate::wrong::steady::{rule}"));
        modules += &format!("#[allow(dead_code, unused, clippy::all)]\nmod {rule} {{\n{wrong}}}\n");
    }
    let folder = env::var("OUT_DIR").expect("cargo names a folder");
    fs::write(Path::new(&folder).join("steady.rs"), modules).expect("a file");
}

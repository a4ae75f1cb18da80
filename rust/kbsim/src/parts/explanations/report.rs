// Exported from crates/explanations/src/report.rt by bin/export-rust. Edit that file instead.
//! What the host reads in a report.

use crate::parts::explanations::code::tell_usage;
use crate::parts::kbsim::Reading;
use core::fmt;

/// Tells what the host makes of a report.
pub(crate) fn tell_reading(
    f: &mut fmt::Formatter<'_>,
    reading: &Reading,
) -> fmt::Result {
    match reading {
        Reading::Usages(usages) if usages.as_slice().is_empty() => f.write_str(
            "the host reads that nothing is pressed",
        ),
        Reading::Usages(usages) => tell_usages(f, usages.as_slice()),
        _ => f.write_str("the host has fetched no report descriptor to read it by"),
    }
}

/// Tells usages by their names.
fn tell_usages(f: &mut fmt::Formatter<'_>, usages: &[u32]) -> fmt::Result {
    let mut before = "the host reads ";
    for usage in usages {
        f.write_str(before)?;
        tell_usage(f, *usage)?;
        before = "; ";
    }
    Ok(())
}

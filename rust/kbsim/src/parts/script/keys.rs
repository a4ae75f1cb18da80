// Exported from crates/script/src/keys.rt by bin/export-rust. Edit that file instead.
//! Reading the keys that a scan names.

use crate::parts::script::LineFault;
use crate::parts::script::number::number;
use crate::parts::script::words::Words;
use wuzhikar::parts::debounce::Scan;

/// The scan of the keys that these words name, each a number of 0 to 95; `BadNumber` where one is
/// no such number. A key that is named twice is one key.
pub(crate) fn keys(rest: Words<'_>) -> Result<Scan, LineFault> {
    let mut scan = Scan::NONE;
    for word in rest {
        scan = scan.with(number(word, 96)? as u8, true);
    }
    Ok(scan)
}

#[allow(unused_imports)]
use wuzhikar::calls::ScanCalls as _;

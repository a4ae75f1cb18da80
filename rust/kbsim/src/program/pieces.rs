//! What the line of a report is put together of: numbers, and names of usages.

use serde_json::json;
use std::collections::HashMap;
use wuzhikar_hid::UsageName;

/// Appends a number in decimal.
pub fn put_number(line: &mut Vec<u8>, number: i64) {
    if let 0..=9 = number {
        return line.push(b'0' + number as u8);
    }
    if number < 0 {
        line.push(b'-');
    }
    let (mut left, mut digits, mut first) = (number.unsigned_abs(), [0; 20], 20);
    loop {
        first -= 1;
        digits[first] = b'0' + (left % 10) as u8;
        left /= 10;
        if left == 0 {
            break;
        }
    }
    line.extend_from_slice(&digits[first..]);
}

/// The names of usages that were printed, in quotes, at most 4,096 of them: they are kept since each look-up is a search.
pub struct Names {
    told: HashMap<u32, String>,
    /// Whether they are texts of JSON.
    is_json: bool,
}

impl Names {
    pub fn new(is_json: bool) -> Names {
        Names { told: HashMap::new(), is_json }
    }

    pub fn quoted(&mut self, usage: u32) -> &str {
        if self.told.len() == 4_096 && !self.told.contains_key(&usage) {
            self.told.clear();
        }
        let quoted = |name: String| if self.is_json { json!(name).to_string() } else { format!("\"{name}\"") };
        self.told.entry(usage).or_insert_with(|| quoted(UsageName(usage).to_string()))
    }
}

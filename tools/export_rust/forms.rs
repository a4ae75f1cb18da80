//! Forms of Rust that `widths` refuses, and some that it takes, by their names. They are compiled and never run.
#![allow(dead_code)]

struct Counter {
    count: usize,
}

fn refused_product(bytes: &[u8]) -> usize {
    bytes.len() * 8
}

fn refused_sum(one: &[u8], other: &[u8]) -> usize {
    one.len() + other.len()
}

fn refused_sum_by_a_name(one: &[u8], other: &[u8]) -> usize {
    let count = one.len();
    count + other.len()
}

fn refused_sum_of_lent(one: &usize, other: &usize) -> usize {
    one + other
}

fn refused_sum_of_32_bits(count: u32) -> usize {
    count as usize + 1
}

fn refused_field(counter: &mut Counter) {
    counter.count += 1;
}

fn refused_element(counts: &mut [usize]) {
    counts[0] *= 3;
}

fn refused_shift(count: usize) -> usize {
    count << 3
}

fn refused_shift_back(count: usize) -> usize {
    count >> 40
}

fn refused_complement(count: usize) -> usize {
    !count
}

fn refused_cast(bit: u64) -> usize {
    (bit / 8) as usize
}

fn refused_cast_of_another(bytes: &[u8], bit: u64, other: u64) -> usize {
    if bit < bytes.len() as u64 { other as usize } else { 0 }
}

fn refused_cast_with_a_sign(count: usize) -> isize {
    count as isize
}

fn refused_trial(bit: u64) -> Option<usize> {
    usize::try_from(bit).ok()
}

fn refused_sum_of_all(counts: &[usize]) -> usize {
    counts.iter().sum()
}

fn refused_count_of_numbers(most: u64) -> usize {
    (0..most).count()
}

fn refused_sum_of_any<T: core::ops::Add<Output = T>>(one: T, other: T) -> T {
    one + other
}

fn refused_wrapping(one: usize, other: usize) -> usize {
    one.wrapping_add(other)
}

fn refused_power(count: usize) -> usize {
    count.pow(2)
}

fn refused_largest() -> usize {
    usize::MAX
}

fn refused_before_it_is_found(bytes: &[u8], count: usize) -> bool {
    count + 1 < bytes.len()
}

fn refused_where_it_is_not_found(bytes: &[u8], count: usize) -> usize {
    if count < bytes.len() { 0 } else { count + 1 }
}

fn refused_two_more(bytes: &[u8], count: usize) -> usize {
    if count < bytes.len() { count + 2 } else { 0 }
}

fn refused_where_it_has_changed(bytes: &[u8], mut count: usize, other: usize) -> usize {
    if count < bytes.len() {
        count = other;
        return count + 1;
    }
    0
}

fn taken_cast(count: u32) -> usize {
    count as usize
}

fn taken_small(count: u16) -> usize {
    8 * usize::from(count) + 7
}

fn taken_no_larger(one: &[u8], other: &[u8]) -> usize {
    one.len().saturating_sub(other.len()) / 2 % 8
}

fn taken_cast_that_is_found(bytes: &[u8], place: u64) -> u8 {
    if place < bytes.len() as u64 { bytes[place as usize] } else { 0 }
}

fn taken_count(bytes: &[u8]) -> usize {
    let mut count = 0;
    while count < bytes.len() {
        count += 1;
    }
    count
}

fn taken_count_by_eight(bytes: &[u8]) -> usize {
    let mut count = 0;
    while bytes.len() - count >= 8 {
        count += 8;
    }
    count
}

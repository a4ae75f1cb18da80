// SPDX-License-Identifier: MIT OR Apache-2.0
//! The edge: what is refused, and what each call does.

use super::*;
use core::ptr::{null, null_mut};

const SET_CONFIGURATION: [u8; 8] = [0, 9, 1, 0, 0, 0, 0, 0];
const SET_FEATURE: [u8; 8] = [0x21, 9, 3, 3, 0, 0, 6, 0];
const GET_FEATURE: [u8; 8] = [0xa1, 1, 3, 3, 0, 0, 6, 0];

/// A whole transfer, whose data has room for what the SETUP packet says.
fn control(bench: *mut Bench, setup: [u8; 8], data: &mut [u8]) -> c_int {
    // SAFETY: the bench is one, and the counts are those of the arrays.
    unsafe { bench_control(bench, setup.as_ptr(), 8, data.as_mut_ptr(), data.len()) }
}

#[test]
fn a_wrong_call_is_refused_before_the_device_sees_it() {
    assert!(bench_new(1, 16).is_null() && bench_new(9, 16).is_null() && bench_new(2, 9).is_null());
    let (bench, mut buffer) = (bench_new(2, 32), [0u8; 64]);
    assert_eq!(control(bench, SET_CONFIGURATION, &mut []), 0);
    let (bytes, rows) = (buffer.as_mut_ptr(), [1u16; 6]);
    // SAFETY: the counts are refused, or there are as many values.
    unsafe {
        assert_eq!(bench_setup(bench, bytes, 7), REFUSED);
        assert_eq!(bench_setup(bench, null(), 8), REFUSED);
        assert_eq!(bench_out(bench, bytes, 9), REFUSED);
        assert_eq!(bench_out(bench, null(), 1), REFUSED);
        assert_eq!(bench_in(bench, bytes, 7), REFUSED);
        assert_eq!(bench_in(bench, null_mut(), 8), REFUSED);
        assert_eq!(bench_control(bench, GET_FEATURE.as_ptr(), 7, bytes, 64), REFUSED);
        assert_eq!(bench_control(bench, GET_FEATURE.as_ptr(), 8, bytes, 5), REFUSED);
        assert_eq!(bench_control(bench, GET_FEATURE.as_ptr(), 8, null_mut(), 6), REFUSED);
        assert_eq!(bench_tear(bench, null(), 1), REFUSED);
        assert_eq!(bench_cut_in_work(bench, bytes, 4097), REFUSED);
        assert_eq!(bench_image(bench, bytes, 64), REFUSED);
        assert_eq!(bench_scan(bench, rows.as_ptr(), 5), REFUSED);
        (0..5).for_each(|_| assert_eq!(bench_scan(bench, rows.as_ptr(), 6), ACK));
        assert_eq!(bench_poll(bench, bytes, 63), REFUSED);
        assert_eq!(bench_poll(bench, null_mut(), 64), REFUSED);
        // The report of the scans still waits.
        assert_eq!(bench_poll(bench, bytes, 64), 23);
        assert_eq!(bench_poll(bench, bytes, 64), NAK);
        bench_free(bench);
    }
}

#[test]
fn no_device_is_refused() {
    let mut buffer = [0u8; 64];
    let bytes = buffer.as_mut_ptr();
    // SAFETY: null is allowed.
    unsafe {
        assert_eq!(bench_setup(null_mut(), bytes, 8), REFUSED);
        assert_eq!(bench_out(null_mut(), bytes, 8), REFUSED);
        assert_eq!(bench_in(null_mut(), bytes, 8), REFUSED);
        assert_eq!(bench_control(null_mut(), bytes, 8, bytes, 64), REFUSED);
        assert_eq!(bench_poll(null_mut(), bytes, 64), REFUSED);
        assert_eq!(bench_scan(null_mut(), [0u16; 6].as_ptr(), 6), REFUSED);
        assert_eq!(bench_work(null_mut()), REFUSED);
        assert_eq!(bench_tear(null_mut(), bytes, 1), REFUSED);
        assert_eq!(bench_leds(null()), REFUSED);
        assert_eq!(bench_reset(null_mut()), REFUSED);
        assert_eq!(bench_cut(null_mut()), REFUSED);
        assert_eq!(bench_cut_in_work(null_mut(), bytes, 1), REFUSED);
        assert_eq!(bench_image(null(), bytes, 64), REFUSED);
        assert!(bench_on_image(null(), 8192, 16).is_null() && bench_on_image(bytes, 64, 16).is_null());
        bench_free(null_mut());
    }
}

#[test]
fn endpoint_1_is_off_ready_or_halted() {
    let (bench, mut packet) = (bench_new(2, 16), [0u8; 64]);
    // SAFETY: there is as much room.
    let mut poll = || unsafe { bench_poll(bench, packet.as_mut_ptr(), 64) };
    assert_eq!(poll(), OFF);
    assert_eq!(control(bench, SET_CONFIGURATION, &mut []), 0);
    assert_eq!(poll(), NAK);
    // SAFETY: six rows.
    (0..5).for_each(|_| assert_eq!(unsafe { bench_scan(bench, [1u16, 0, 0, 0, 0, 0].as_ptr(), 6) }, ACK));
    assert_eq!([poll(), poll(), poll()], [16, 7, NAK]);
    assert_eq!(control(bench, [2, 3, 0, 0, 0x81, 0, 0, 0], &mut []), 0);
    assert_eq!(poll(), STALL);
    // SAFETY: the bench is one, and goes.
    unsafe {
        assert_eq!(bench_reset(bench), ACK);
        assert_eq!(poll(), OFF);
        bench_free(bench);
    }
}

/// The code of the selected entry.
fn entry(bench: *mut Bench) -> u8 {
    let mut read = [0; 6];
    assert_eq!(control(bench, GET_FEATURE, &mut read), 6);
    read[4]
}

#[test]
fn operations_are_torn_and_the_flash_is_taken_along() {
    let (bench, mut image) = (bench_new(2, 16), vec![0u8; 8192]);
    assert_eq!(control(bench, SET_FEATURE, &mut [3, 1, 0, 0, 5, 0]), 6);
    assert_eq!(control(bench, SET_FEATURE, &mut [3, 1, 4, 0, 5, 0]), STALL - 8);
    // SAFETY: the bench is one, and the counts are those of the arrays.
    unsafe {
        // A torn record is spoiled, and the command fails: the host is told by a stall.
        bench_setup(bench, SET_FEATURE.as_ptr(), 8);
        assert_eq!(bench_out(bench, [3, 1, 0, 0, 6, 0].as_ptr(), 6), ACK);
        assert_eq!(bench_in(bench, image.as_mut_ptr(), 8), NAK);
        assert_eq!(bench_tear(bench, [0x0f].as_ptr(), 1), 3);
        assert_eq!(bench_in(bench, image.as_mut_ptr(), 8), STALL - 13);
        assert_eq!(entry(bench), 5);
        // The power goes inside an operation that takes effect, and inside one that does not.
        for (mask, set, kept) in [(&[0xff][..], 7, 7), (&[], 8, 7)] {
            bench_setup(bench, SET_FEATURE.as_ptr(), 8);
            assert_eq!(bench_out(bench, [3, 1, 0, 0, set, 0].as_ptr(), 6), ACK);
            assert_eq!(bench_cut_in_work(bench, mask.as_ptr(), mask.len()), ACK);
            assert_eq!(entry(bench), kept);
        }
        assert_eq!(bench_image(bench, image.as_mut_ptr(), image.len()), 8192);
        let other = bench_on_image(image.as_ptr(), image.len(), 64);
        assert_eq!(entry(other), 7);
        bench_free(bench);
        bench_free(other);
    }
}

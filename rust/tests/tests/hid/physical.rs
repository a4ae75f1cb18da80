//! Physical values.

use proptest::prelude::*;
use wuzhikar_hid::{Detail, NoPhysical, NoValue, details};
use wuzhikar_tests::{bytes, expect, number};

/// `LOGICAL MINIMUM MAXIMUM, PHYSICAL MINIMUM MAXIMUM, EXPONENT, VALUE = NUMERATOR/DENOMINATOR eEXPONENT`, or the refusal.
#[test]
fn physical_values() {
    let told = details(&bytes("75 01 95 01 25 01 81 02")).expect("memory");
    expect(ROWS, |ask| {
        let numbers: Vec<i64> = ask.split(' ').map(number).collect();
        let [min, max, physical_min, physical_max, exponent, value] = numbers[..] else { panic!("six numbers: {ask}") };
        let detail = Detail { min, max, physical_min, physical_max, exponent, ..told.fields[0] };
        match detail.physical_value(value) {
            Ok(it) => format!("{}/{} e{}", it.numerator, it.denominator, it.exponent),
            Err(error) => format!("{error:?}"),
        }
    });
}

const ROWS: &str = "
    1 8 0 315 0 1 = 0/1 e0
    1 8 0 315 0 2 = 45/1 e0
    1 8 0 315 0 8 = 315/1 e0
    1 8 0 315 0 9 = 360/1 e0
    0 7 0 360 0 1 = 360/7 e0
    -127 127 -127 127 0 -5 = -5/1 e0
    0 4 10 20 -3 1 = 25/2 e-3
    0 255 0 0 0 17 = 17/1 e0
    0 10 20 10 2 3 = 17/1 e2
    0 3 -1 1 0 1 = -1/3 e0
    -2147483648 2147483647 -2147483648 4294967295 0 2147483647 = 4294967295/1 e0
    -2147483648 2147483647 0 4294967295 -8 -2147483648 = 0/1 e-8
    0 4294967295 0 1 0 4294967294 = 4294967294/4294967295 e0
    -2147483648 2147483647 2147483647 -2147483648 0 -2147483648 = 2147483647/1 e0
    0 1 -4294967296 4294967296 0 9223372036854775807 = 79228162514264337580659048448/1 e0
    5 5 0 1 0 5 = EqualLimits
    6 5 0 1 0 5 = InvertedLimits
    0 1 -4294967297 0 0 1 = LargeExtents
    0 1 0 4294967297 0 1 = LargeExtents
    0 1 -9223372036854775808 9223372036854775807 0 1 = LargeExtents
    5 5 0 9223372036854775807 0 5 = EqualLimits
    6 5 -9223372036854775808 1 0 5 = InvertedLimits
    -9223372036854775808 9223372036854775807 -4294967296 4294967296 0 9223372036854775807 = 4294967296/1 e0
";

/// A field with these extents.
fn field(logical: (i64, i64), physical: (i64, i64), exponent: i64) -> Detail {
    let told = details(&bytes("75 01 95 01 25 01 81 02")).expect("memory");
    let ((min, max), (physical_min, physical_max)) = (logical, physical);
    Detail { min, max, physical_min, physical_max, exponent, ..told.fields[0] }
}

/// `LOGICAL MINIMUM MAXIMUM, PHYSICAL MINIMUM MAXIMUM, EXPONENT, NUMERATOR DENOMINATOR = VALUE`, or the refusal.
#[test]
fn values_of_the_unit() {
    expect(OF_UNIT, |ask| {
        let numbers: Vec<i64> = ask.split(' ').map(number).collect();
        let [min, max, least, greatest, exponent, above, below] = numbers[..] else { panic!("seven numbers: {ask}") };
        match field((min, max), (least, greatest), exponent).value_of(above, below as u64) {
            Ok(value) => value.to_string(),
            Err(NoValue::NoPhysical(why)) => format!("{why:?}"),
            Err(NoValue::NoStep) => "NoStep".into(),
        }
    });
}

const OF_UNIT: &str = "
    1 8 0 315 0 90 1 = 3
    1 8 0 315 0 180 2 = 3
    1 8 0 315 0 91 1 = NoStep
    1 8 0 315 0 360 1 = NoStep
    1 8 0 315 0 -45 1 = NoStep
    0 7 0 360 0 360 7 = 1
    0 4 10 20 -3 25 2000 = 1
    0 4 10 20 -3 25 2 = NoStep
    0 10 20 10 2 1700 1 = 3
    0 10 20 10 2 17 1 = NoStep
    0 3 -1 1 0 -1 3 = 1
    0 3 -1 1 40 0 1 = NoStep
    0 2 -1 1 40 0 1 = 1
    0 2 -1 1 40 1 1 = NoStep
    0 2 -1 1 -40 1 9223372036854775807 = NoStep
    0 255 5 5 0 5 1 = NoStep
    0 255 0 0 0 17 1 = 17
    0 255 0 0 0 17 0 = NoStep
    -2147483648 2147483647 -2147483648 4294967295 0 4294967295 1 = 2147483647
    -2147483648 2147483647 2147483647 -2147483648 0 2147483647 1 = -2147483648
    0 4294967295 0 1 0 4294967294 4294967295 = 4294967294
    -9223372036854775808 9223372036854775807 0 -1 9223372036854775807 -9223372036854775808 1 = NoStep
    -9223372036854775808 9223372036854775807 1 0 0 1 1 = -9223372036854775808
    5 5 0 1 0 5 1 = EqualLimits
    6 5 0 1 0 5 1 = InvertedLimits
    0 1 0 4294967297 0 1 1 = LargeExtents
";

proptest! {
    #![proptest_config(ProptestConfig { cases: 2_000, failure_persistence: None, ..ProptestConfig::default() })]

    /// Each value is found by what it is in the unit, and between two values there is none.
    #[test]
    fn values_are_found_by_their_units(
        min in -40_000i64..40_000, span in 1i64..1_000, least in -1_000i64..1_000, rise in -1_000i64..1_000,
        exponent in -6i64..7, over in 0i64..1_000,
    ) {
        let (detail, value) = (field((min, min + span), (least, least + rise), exponent), min + over % span);
        prop_assume!(rise != 0 && (detail.physical_min, detail.physical_max) != (0, 0));
        let in_unit = |above: i128, below: i128| {
            let power = 10i128.pow(exponent.unsigned_abs() as u32);
            let (above, below) = if exponent < 0 { (above, below * power) } else { (above * power, below) };
            detail.value_of(i64::try_from(above).unwrap(), u64::try_from(below).unwrap())
        };
        let here = detail.physical_value(value).unwrap();
        let next = detail.physical_value(value + 1).unwrap();
        prop_assert_eq!(in_unit(here.numerator, here.denominator), Ok(value));
        prop_assert_eq!(in_unit(next.numerator, next.denominator), Ok(value + 1));
        let between = here.numerator * next.denominator + next.numerator * here.denominator;
        prop_assert_eq!(in_unit(between, 2 * here.denominator * next.denominator), Err(NoValue::NoStep));
    }
}

#[test]
fn no_value_says_why() {
    let why = NoValue::NoPhysical(NoPhysical::EqualLimits);
    assert_eq!(why.to_string(), "the logical extents are equal");
    assert_eq!(NoValue::NoStep.to_string(), "no value of the field is just so much");
}

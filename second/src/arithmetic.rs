//! Arithmetic and relations on values, which run from -(10^18 - 1) to 10^18 - 1.

use crate::stop::Fault;

/// 10^0 to 10^18.
const POWERS: [i64; 19] = [
    1,
    10,
    100,
    1_000,
    10_000,
    100_000,
    1_000_000,
    10_000_000,
    100_000_000,
    1_000_000_000,
    10_000_000_000,
    100_000_000_000,
    1_000_000_000_000,
    10_000_000_000_000,
    100_000_000_000_000,
    1_000_000_000_000_000,
    10_000_000_000_000_000,
    100_000_000_000_000_000,
    1_000_000_000_000_000_000,
];

/// The greatest value.
const GREATEST: i64 = POWERS[18] - 1;

/// The result of the item `code`, an operator on one value.
pub fn one(code: u8, x: i64) -> i64 {
    match code {
        0x15 => -x,
        0x1C => i64::from(x == 0),
        _ => unreachable!("{code:02X} is no operator on one value"),
    }
}

/// The result of the item `code`, an operator on two values. The one held first is `x`.
pub fn two(code: u8, x: i64, y: i64) -> Result<i64, Fault> {
    match code {
        0x10 => add(x, y),
        0x11 => add(x, -y),
        0x12 => multiply(x, y),
        0x13 => divide(x, y),
        0x14 => round(x, y),
        0x16 => Ok(i64::from(x == y)),
        0x17 => Ok(i64::from(x != y)),
        0x18 => Ok(i64::from(x > y)),
        0x19 => Ok(i64::from(x < y)),
        0x1A => Ok(i64::from(x >= y)),
        0x1B => Ok(i64::from(x <= y)),
        0x1D => Ok(i64::from(x != 0 && y != 0)),
        0x1E => Ok(i64::from(x != 0 || y != 0)),
        0x1F => Ok(i64::from((x != 0) != (y != 0))),
        _ => unreachable!("{code:02X} is no operator on two values"),
    }
}

/// The sum of two values. It stays far inside 64 bits before it is tested.
pub fn add(x: i64, y: i64) -> Result<i64, Fault> {
    tested(x + y)
}

fn multiply(x: i64, y: i64) -> Result<i64, Fault> {
    x.checked_mul(y).map_or(Err(Fault::Digits), tested)
}

/// The quotient, truncated toward zero.
fn divide(x: i64, y: i64) -> Result<i64, Fault> {
    if y == 0 {
        return Err(Fault::ZeroDivisor);
    }
    Ok(x / y)
}

/// v # k: drops `k` digits of the magnitude, rounding half up in magnitude, the sign kept.
fn round(v: i64, k: i64) -> Result<i64, Fault> {
    let power = usize::try_from(k).ok().and_then(|k| POWERS.get(k));
    let power = power.ok_or(Fault::Rounding)?;
    let magnitude = (v.abs() + power / 2) / power;
    Ok(magnitude * v.signum())
}

/// The result itself, or 20 if it has more than 18 digits.
fn tested(result: i64) -> Result<i64, Fault> {
    if is_value(result) {
        Ok(result)
    } else {
        Err(Fault::Digits)
    }
}

/// Whether a number is in the range of values.
pub fn is_value(number: i64) -> bool {
    (-GREATEST..=GREATEST).contains(&number)
}

#[cfg(test)]
mod tests {
    use super::*;

    #[test]
    fn powers_are_powers() {
        for (power, next) in POWERS.iter().zip(&POWERS[1..]) {
            assert_eq!(power * 10, *next);
        }
    }

    #[test]
    fn sums_keep_to_18_digits() {
        assert_eq!(two(0x10, GREATEST, 1), Err(Fault::Digits));
        assert_eq!(two(0x10, GREATEST, 0), Ok(GREATEST));
        assert_eq!(two(0x10, GREATEST, GREATEST), Err(Fault::Digits));
        assert_eq!(two(0x11, -GREATEST, 1), Err(Fault::Digits));
        assert_eq!(two(0x11, -GREATEST, GREATEST), Err(Fault::Digits));
        assert_eq!(two(0x11, -GREATEST, -1), Ok(1 - GREATEST));
        assert_eq!(two(0x11, 3, 5), Ok(-2));
    }

    #[test]
    fn both_sides_of_the_range_of_values() {
        for (number, is_one) in [(0, true), (GREATEST, true), (GREATEST + 1, false)] {
            assert_eq!(is_value(number), is_one);
            assert_eq!(is_value(-number), is_one);
        }
        assert!(!is_value(i64::MAX) && !is_value(i64::MIN));
    }

    #[test]
    fn products_keep_to_18_digits() {
        let product = |x, y| two(0x12, x, y);
        assert_eq!(
            product(999_999_999, 1_000_000_000),
            Ok(999_999_999_000_000_000)
        );
        assert_eq!(product(1_000_000_000, 1_000_000_000), Err(Fault::Digits));
        assert_eq!(product(-1_000_000_000, 1_000_000_000), Err(Fault::Digits));
        assert_eq!(product(GREATEST, -1), Ok(-GREATEST));
        assert_eq!(product(GREATEST, GREATEST), Err(Fault::Digits));
        // These products are 0, 1 and the least number when cut to 64 bits.
        assert_eq!(product(1 << 40, 1 << 24), Err(Fault::Digits));
        assert_eq!(product(274_177, 67_280_421_310_721), Err(Fault::Digits));
        assert_eq!(product(-(1 << 32), 1 << 31), Err(Fault::Digits));
    }

    #[test]
    fn quotients_are_cut_toward_zero() {
        assert_eq!(two(0x13, -7, 2), Ok(-3));
        assert_eq!(two(0x13, 7, -2), Ok(-3));
        assert_eq!(two(0x13, -7, -2), Ok(3));
        assert_eq!(two(0x13, 7, 2), Ok(3));
        assert_eq!(two(0x13, -1, 2), Ok(0));
        assert_eq!(two(0x13, 1, 0), Err(Fault::ZeroDivisor));
        assert_eq!(two(0x13, 0, 0), Err(Fault::ZeroDivisor));
    }

    #[test]
    fn rounding_goes_half_up_in_magnitude() {
        let rounded = |v, k| two(0x14, v, k);
        assert_eq!(rounded(25, 1), Ok(3));
        assert_eq!(rounded(-25, 1), Ok(-3));
        assert_eq!(rounded(24, 1), Ok(2));
        assert_eq!(rounded(-24, 1), Ok(-2));
        assert_eq!(rounded(-4, 1), Ok(0));
        assert_eq!(rounded(149, 2), Ok(1));
        assert_eq!(rounded(150, 2), Ok(2));
        assert_eq!(rounded(-25, 0), Ok(-25));
        assert_eq!(rounded(99, 3), Ok(0));
        assert_eq!(rounded(500, 3), Ok(1));
        assert_eq!(rounded(500_000_000_000_000_000, 18), Ok(1));
        assert_eq!(rounded(499_999_999_999_999_999, 18), Ok(0));
        assert_eq!(rounded(-GREATEST, 18), Ok(-1));
        assert_eq!(rounded(GREATEST, 17), Ok(10));
        for k in [-1, 19, GREATEST, -GREATEST] {
            assert_eq!(rounded(25, k), Err(Fault::Rounding));
        }
    }

    #[test]
    fn relations_give_1_or_0() {
        // The results for x below, equal to and above y.
        for (code, results) in [
            (0x16, [0, 1, 0]),
            (0x17, [1, 0, 1]),
            (0x18, [0, 0, 1]),
            (0x19, [1, 0, 0]),
            (0x1A, [0, 1, 1]),
            (0x1B, [1, 1, 0]),
        ] {
            for (x, result) in [-12, 5, 12].into_iter().zip(results) {
                assert_eq!(two(code, x, 5), Ok(result), "{x} {code:02X} 5");
            }
        }
    }

    #[test]
    fn nonzero_is_true() {
        for (code, results) in [
            (0x1D, [0, 0, 0, 1]),
            (0x1E, [0, 1, 1, 1]),
            (0x1F, [0, 1, 1, 0]),
        ] {
            let pairs = [(0, 0), (0, -2), (3, 0), (3, -2)];
            for ((x, y), result) in pairs.into_iter().zip(results) {
                assert_eq!(two(code, x, y), Ok(result), "{x} {code:02X} {y}");
            }
        }
        assert_eq!([one(0x1C, 0), one(0x1C, 1), one(0x1C, -2)], [1, 0, 0]);
        assert_eq!([one(0x15, 0), one(0x15, 5), one(0x15, -5)], [0, -5, 5]);
    }
}

//! Tests of masks.

use super::*;
use crate::sample::written;
use crate::text::write_right;

fn shown(mask: &str, value: i64) -> String {
    String::from_utf8(edited(mask.as_bytes(), value)).unwrap()
}

/// Holds each mask with its number to what it shows.
fn hold(rows: &[(&str, i64, &str)]) {
    for &(mask, value, wanted) in rows {
        assert_eq!(shown(mask, value), wanted, "{mask} of {value}");
    }
}

/// Holds a formatted move of each number, with its mask, to what it stores in an alpha place of so
/// many bytes.
fn hold_stored(rows: &[(i64, &str, usize, &str)]) {
    for &(value, mask, length, wanted) in rows {
        let shown = edited(mask.as_bytes(), value);
        let stored = written(length, |place| write_right(place, &shown));
        assert_eq!(stored, wanted, "{mask} of {value}");
    }
}

#[test]
fn the_examples_of_the_manual() {
    hold_stored(&[
        (123, "XXXXXXXX", 8, "00000123"),
        (123, "ZZZZZZZ", 8, "     123"),
        (123, "********", 8, "*****123"),
        (123, "$$$$$$", 8, "    $123"),
        (-1123, "-XXX,XXX", 8, "-001,123"),
        (123, "$$$$$.XX", 8, "   $1.23"),
        (-123, "$***.**-", 8, "$**1.23-"),
        (12_345_678, "X,XXX.XX", 8, "3,456.78"),
        (1234, "$,$$$.XX", 8, "  $12.34"),
        (1234, "*,***.XX", 8, "***12.34"),
        (1234, "Z,ZZZ.XX", 8, "   12.34"),
        (123_456_789, "$$$$$$$$.XX", 15, "    $1234567.89"),
    ]);
}

/// The classes of a mask's characters: place, comma, point, sign or mark.
fn classes(mask: &[u8]) -> String {
    let money = Money::of(mask);
    let letter = |at| match class(mask, money, at) {
        Class::Place => 'p',
        Class::Comma => ',',
        Class::Point => '.',
        Class::Sign => '-',
        Class::Mark => 'm',
    };
    (0..mask.len()).map(letter).collect()
}

#[test]
fn classes_go_by_the_money_signs_and_the_ends() {
    for (mask, wanted) in [
        ("XZ*$", "mmmp"),
        ("$XZ*", "pppp"),
        ("$X$Z$*", "pmpmpp"),
        (",X,", ",p,"),
        (",$,$,", "mp,p,"),
        (",,$,,$,,", "mmp,,p,,"),
        (".X.", ".p."),
        (".$.$.", "mpmp."),
        ("-", "-"),
        ("--", "--"),
        ("---", "-m-"),
        ("-X-X-", "-pmp-"),
        ("-$-$-", "-pmp-"),
        (" -X- ", "mmpmm"),
        ("xz#09/", "mmmmmm"),
    ] {
        assert_eq!(classes(mask.as_bytes()), wanted, "{mask}");
    }
}

#[test]
fn every_byte_has_a_class_alone_and_before_a_money_sign() {
    for byte in 0..=255 {
        let alone = match byte {
            b'X' | b'Z' | b'*' | b'$' => "p",
            b',' => ",",
            b'.' => ".",
            b'-' => "-",
            _ => "m",
        };
        assert_eq!(classes(&[byte]), alone, "{byte:02X}");
        let before = match byte {
            b'$' => "mppm",
            _ => "mmpm",
        };
        assert_eq!(classes(&[b'0', byte, b'$', b'0']), before, "{byte:02X}");
        if alone == "m" {
            assert_eq!(edited(&[byte], -7), [byte]);
            assert_eq!(edited(&[byte, b'Z', byte], 0), [byte, b' ', byte]);
        }
    }
}

#[test]
fn a_number_loses_the_high_digits_that_have_no_place() {
    hold(&[
        ("XX", 1234, "34"),
        ("Z.Z", 1203, " .3"),
        ("X", 1_000_000_000_000_000_007, "7"),
        ("abc", 5, "abc"),
        (&"X".repeat(18), 999_999_999_999_999_999, &"9".repeat(18)),
        (
            &"X".repeat(20),
            999_999_999_999_999_999,
            &format!("00{}", "9".repeat(18)),
        ),
        (&"Z".repeat(40), 7, &format!("{:>40}", 7)),
    ]);
}

#[test]
fn a_sign_is_judged_on_the_digits_left() {
    hold(&[
        ("XX-", -5, "05-"),
        ("XX-", 5, "05 "),
        ("-XX", -105, "-05"),
        ("-XX", -100, " 00"),
        ("-ZZ", -100, "   "),
        ("-", -1, " "),
        ("-a-", -1, " a "),
        ("-X-", -1, "-1-"),
        ("-XX-X", -123, "-12-3"),
        ("-XX-X", 123, " 12-3"),
        ("-$$$", -5, "- $5"),
    ]);
}

#[test]
fn zero_shows_blank_where_no_place_is_an_x() {
    hold(&[
        ("ZZZ", 0, "   "),
        ("Z.ZZ", 0, "    "),
        ("***", 0, "***"),
        ("*,***.**-", 0, "******** "),
        ("$$,$$$.ZZ", 0, "         "),
        ("$$$.**", 0, "    **"),
        ("Z,ZZ*.ZZ", -1_000_000, "    **  "),
        ("Z/Z-Z", 0, " / - "),
        ("Z.ZX", 0, " .00"),
        ("$$.X", 0, " $.0"),
        ("**.XX", 0, "**.00"),
        (".", 0, "."),
        (",.,", 0, " .,"),
    ]);
}

#[test]
fn significance_begins_at_an_x_a_digit_or_a_point() {
    hold(&[
        ("ZZXZZ", 0, "  000"),
        ("ZXZ*", 5, " 005"),
        ("ZZ.ZZ", 5, "  .05"),
        ("Z,ZZZ.ZZ", 5, "     .05"),
        ("Z,ZZZ", 1204, "1,204"),
        ("Z,ZZZ", 204, "  204"),
        ("*,***", 204, "**204"),
        ("$,$$$", 204, " $204"),
        ("X,XXX", 4, "0,004"),
        (",XX", 4, " 04"),
        ("Z,,ZX", 4, "    4"),
        ("*,,*X", 4, "****4"),
        ("X,,X", 4, "0,,4"),
        ("Z.,ZX", 4, " .,04"),
    ]);
}

#[test]
fn the_money_sign_stands_once_before_what_is_significant() {
    hold(&[
        ("$$$", 5, " $5"),
        ("$$$", 123, "123"),
        ("$ZZZ", 5, "$  5"),
        ("$***.**", 5, "$***.05"),
        ("$$,ZZZ", 5, "  $  5"),
        ("$,$$$", 1204, "1,204"),
        ("$$,$$$", 1204, "$1,204"),
        ("$$,$$$", 204, "  $204"),
        ("$$$.XX", 5, "  $.05"),
        ("$a$b$", 5, " a$b5"),
        ("X$$", 5, "X$5"),
        ("Z$$", 5, "Z$5"),
        (".$$.X", 5, ". $.5"),
        ("CHF $$$,$$$.XX", 120_450, "CHF  $1,204.50"),
    ]);
}

#[test]
fn the_left_is_cut_or_filled_and_what_is_cut_does_not_move() {
    hold_stored(&[
        (-1204, "-$$,$$$", 4, ",204"),
        (-1204, "-$$,$$$", 6, "$1,204"),
        (-1204, "-$$,$$$", 7, "-$1,204"),
        (-1204, "-$$,$$$", 9, "  -$1,204"),
        (-1204, "Z,ZZZ-", 1, "-"),
    ]);
}

#[test]
fn the_longest_mask() {
    let mask = "Z".repeat(16_380) + ".XX";
    let wanted = format!("{:>16380}.50", 1204);
    assert_eq!(shown(&mask, 120_450), wanted);
    assert_eq!(shown(&"*".repeat(16_383), 0), "*".repeat(16_383));
}

/// The rule as it is written, for each position by itself.
fn by_the_rule(mask: &[u8], value: i64) -> Vec<u8> {
    let end = mask.len();
    let right = |i: usize| mask[i + 1..].contains(&MONEY);
    let left = |i: usize| mask[..i].contains(&MONEY);
    let class = |i: usize| match mask[i] {
        b'-' if i == 0 || i == end - 1 => Class::Sign,
        b'$' => Class::Place,
        b'X' | b'Z' | b'*' if !right(i) => Class::Place,
        b',' if !right(i) || left(i) && right(i) => Class::Comma,
        b'.' if !right(i) => Class::Point,
        _ => Class::Mark,
    };
    let is_place = |i: usize| class(i) == Class::Place;
    let power = |q: usize| 10_u128.pow(q.min(30) as u32);
    let magnitude = u128::from(value.unsigned_abs());
    let n = (0..end).filter(|&i| is_place(i)).count();
    let digit = |i: usize| {
        let q = (i + 1..end).filter(|&j| is_place(j)).count();
        magnitude / power(q) % 10
    };
    let k = magnitude % power(n);
    let is_negative = value < 0 && k != 0;
    let any_x = (0..end).any(|i| is_place(i) && mask[i] == b'X');
    let is_blank = n > 0 && k == 0 && !any_x;
    let begins = |i: usize| match class(i) {
        Class::Place => mask[i] == b'X' || digit(i) != 0,
        Class::Point => !is_blank,
        _ => false,
    };
    let significance = (0..end).find(|&i| begins(i)).unwrap_or(end);
    let lead = |i: usize| {
        let nearest = (0..=i).rev().find(|&j| is_place(j));
        nearest.map_or(b' ', |j| mask[j])
    };
    let may_be_spot = |i: usize| matches!(class(i), Class::Place | Class::Comma) && lead(i) == b'$';
    let spot = (0..significance)
        .rev()
        .find(|&i| may_be_spot(i) && !is_blank);
    let show = |i: usize| match class(i) {
        Class::Mark => mask[i],
        Class::Sign => [b' ', b'-'][usize::from(is_negative)],
        Class::Place if i >= significance => b'0' + digit(i) as u8,
        _ if i >= significance => mask[i],
        _ if lead(i) == b'*' => b'*',
        _ if spot == Some(i) => b'$',
        _ => b' ',
    };
    (0..end).map(show).collect()
}

#[test]
fn short_masks_of_all_characters_keep_the_rule() {
    const CHARACTERS: &[u8] = b"XZ*$-,. a";
    const VALUES: [i64; 9] = [
        0,
        7,
        -7,
        10,
        -100,
        120,
        -3405,
        70_000,
        -999_999_999_999_999_999,
    ];
    let mut masks = vec![vec![]];
    for _ in 0..5 {
        let longer = |mask: &Vec<u8>| {
            CHARACTERS
                .iter()
                .map(|&byte| [&mask[..], &[byte]].concat())
                .collect::<Vec<_>>()
        };
        masks = masks.iter().flat_map(longer).collect();
        for mask in &masks {
            for value in VALUES {
                let text = String::from_utf8_lossy(mask);
                assert_eq!(
                    edited(mask, value),
                    by_the_rule(mask, value),
                    "{text} of {value}"
                );
            }
        }
    }
}

//! The bench values of the paper, each by a run.

use crate::sample::Sample;
use crate::unit::code;

const AM: &str = "abcdefghijklm";
const NZ: &str = "nopqrstuvwxyz";
const NUM: &str = "1234567890";

/// A decimal of the given image, and what stands in an A5 behind it after a move from it.
fn read_into_text(decimal: &str) -> Result<String, u8> {
    let size = decimal.len() as u16;
    let sample = Sample::over(
        &format!("{decimal}?????"),
        &[(1, 0, size, 1), (0, size, 5, 1)],
    );
    match sample.set("%1", "%0").ran() {
        (0, _, _, data) => Ok(data[decimal.len()..].to_string()),
        (stop, ..) => Err(stop),
    }
}

/// What stands in a decimal or an alpha of this size after a SET, or the stop number.
fn stored(kind: u8, size: u16, source: &str) -> Result<String, u8> {
    let sample = Sample::over(&"?".repeat(size.into()), &[(kind, 0, size, 1)]);
    match sample.set("%0", source).ran() {
        (0, 1, 1, data) => Ok(data),
        (stop, place, count, data) => {
            assert_eq!((place, count, data), (0, 0, "?".repeat(size.into())));
            Err(stop)
        }
    }
}

fn text(words: &str) -> Result<String, u8> {
    Ok(words.to_string())
}

#[test]
fn references() {
    let to_am = |source| Sample::bench_values().set("%0", source);
    let am_after = |am: &str| format!("{am:13}{NZ}{NUM}");
    assert_eq!(to_am("12 15 %0(,)").data(), am_after("lmno"));
    assert_eq!(to_am("2 5 neg %1(:)").data(), am_after("klmno"));
    assert_eq!(to_am("2 5 neg %0(:)").fault(), (21, 0));
    assert_eq!(to_am("10 11 %2(,)").fault(), (21, 0));
    assert_eq!(to_am("10 10 %2(,)").data(), am_after("            0"));
    assert_eq!(to_am("4 8 %2(,)").data(), am_after("        45678"));
}

#[test]
fn decimals() {
    assert_eq!(read_into_text("2s"), text("  -23"));
    assert_eq!(read_into_text("0p"), text("    0"));
    assert_eq!(read_into_text("q2"), Err(22));
}

#[test]
fn numbers_into_decimals() {
    assert_eq!(stored(1, 2, "1234"), text("34"));
    assert_eq!(stored(1, 2, "123 neg"), text("2s"));
    assert_eq!(stored(1, 2, "100 neg"), text("00"));
}

#[test]
fn arithmetic() {
    assert_eq!(stored(1, 2, "7 neg 2 /"), text("0s"));
    assert_eq!(stored(1, 2, "25 1 #"), text("03"));
    assert_eq!(stored(1, 2, "25 neg 1 #"), text("0s"));
    assert_eq!(stored(1, 2, "24 1 #"), text("02"));
    assert_eq!(stored(1, 18, "999999999999999999 1 +"), Err(20));
    assert_eq!(
        stored(1, 18, "999999999 1000000000 *"),
        text("999999999000000000")
    );
}

#[test]
fn text_and_numbers() {
    assert_eq!(stored(1, 4, "\"_1-2_\""), text("001r"));
    assert_eq!(stored(1, 4, "\"1--2\""), Err(22));
    assert_eq!(stored(0, 5, "45 neg"), text("  -45"));
    assert_eq!(stored(0, 2, "45 neg"), text("45"));
}

#[test]
fn overlap() {
    let sample = Sample::bench_values().set("2 6 %0(,)", "1 5 %0(,)");
    assert_eq!(sample.data(), format!("aabcdeghijklm{NZ}{NUM}"));
}

/// Stop, place and count of a run whose only loop counts its passes in a second D2, with the control
/// and the passes after it.
fn repeated(size: u16, numbers: [&str; 3]) -> (u8, usize, u64, String) {
    let image = "?".repeat(size.into()) + "00";
    let sample = Sample::over(&image, &[(1, 0, size, 1), (1, size, 2, 1)]);
    let count = |body: Sample| body.on(code::INCR, "%1");
    sample.looped("%0", numbers, count).ran()
}

#[test]
fn loops() {
    let ended = |count, data: &str| (0, 3, count, data.to_string());
    assert_eq!(repeated(2, ["1", "9", "2"]), ended(11, "1105"));
    assert_eq!(repeated(2, ["5", "1", "1"]), ended(1, "0500"));
    assert_eq!(repeated(2, ["3", "1", "1 neg"]), ended(7, "0003"));
    let kept = "909".to_string();
    assert_eq!(repeated(1, ["1", "9", "1"]), (20, 2, 18, kept));
    let untouched = "??00".to_string();
    assert_eq!(repeated(2, ["100", "999", "0"]), (27, 0, 0, untouched));
    // Each FOR goes on at the next, so that its loop stays open.
    let nested = |loops: u16| {
        let mut sample = Sample::over("0", &[(1, 0, 1, 1)]);
        for _ in 0..loops {
            sample = sample.repeated("%0", ["1", "9", "1"], loops + 1);
        }
        sample.to(code::STOP, 0).to(code::LOOP_END, 0)
    };
    assert_eq!(nested(16).ran(), (0, 18, 17, "1".to_string()));
    assert_eq!(nested(17).ran(), (28, 16, 16, "1".to_string()));
}

#[test]
fn calls() {
    // Each CALL goes on at the next statement, so that it stays open.
    let nested = |calls: u16| {
        let mut sample = Sample::bench_values();
        for i in 1..=calls {
            sample = sample.to(code::CALL, i);
        }
        sample.to(code::STOP, 0)
    };
    let data = format!("{AM}{NZ}{NUM}");
    assert_eq!(nested(50).ran(), (0, 51, 51, data.clone()));
    assert_eq!(nested(51).ran(), (24, 50, 50, data));
}

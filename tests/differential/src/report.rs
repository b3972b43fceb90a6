//! What is printed of a case: enough to make it again without this program.

use crate::cases::Case;
use crate::compare::Difference;
use second::STATE_LEN;
use std::fmt;
use std::panic::catch_unwind;

/// A case in full: seed and number, unit, data, state and allowances, and where the state has all its
/// numbers the run as a question for `second batch`.
pub fn told(seed: u64, number: u64) -> String {
    let Ok(case) = catch_unwind(|| Case::of(seed, number)) else {
        return format!("seed {seed} case {number}: its making panics");
    };
    let [first, more] = case.allowances;
    let (unit, data) = (Hex(&case.unit), Hex(&case.data));
    let mut lines = vec![
        format!("seed {seed} case {number}: {:?} unit", case.kind),
        format!("unit {unit:?}"),
        format!("data {data:?}"),
        format!("state {:?}", case.state),
        format!(
            "allowance {first}, then {more}; room for {} numbers",
            case.room
        ),
    ];
    for other in &case.others {
        lines.push(format!("other data {:?}", Hex(other)));
    }
    if let Some(great) = case.great {
        lines.push(format!("allowance {great} where these do not end in 30"));
    }
    if case.state.len() == STATE_LEN {
        let numbers: Vec<String> = case.state.iter().map(u64::to_string).collect();
        let state = numbers.join(",");
        lines.push(format!("run {unit:?} {data:?} {state} {first}"));
    }
    lines.join("\n")
}

/// What differs.
pub fn difference(difference: &Difference) -> String {
    let Difference {
        what,
        library,
        wanted,
    } = difference;
    format!("differs: {what}\n  library {library}\n  wanted  {wanted}")
}

/// Bytes, shown in hex; `-` stands for none.
pub struct Hex<'a>(pub &'a [u8]);

impl fmt::Debug for Hex<'_> {
    fn fmt(&self, f: &mut fmt::Formatter<'_>) -> fmt::Result {
        if self.0.is_empty() {
            return f.write_str("-");
        }
        self.0.iter().try_for_each(|byte| write!(f, "{byte:02X}"))
    }
}

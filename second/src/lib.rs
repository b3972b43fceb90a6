//! The independent second interpreter of coded DIBOL units.
//!
//! It is written from the papers alone and works straight from the coded bytes, so that its
//! answers can stand beside those of the verified runtime and be compared.

mod arithmetic;
mod batch;
mod bench;
mod check;
mod decimal;
mod expression;
mod fence;
mod infix;
mod literal;
mod loops;
mod mask;
mod numbers;
mod run;
#[cfg(test)]
mod sample;
mod span;
mod state;
mod stop;
mod text;
mod unit;
mod validity;
#[cfg(test)]
mod values;
mod work;

pub use batch::answer;
pub use bench::{bench, image, read_unit, BENCH_ALLOWANCE};
pub use check::check;
pub use fence::{breach, breaches, fence, Breach, Breaking, Fence};
pub use infix::{field_name, reference_text};
pub use literal::{literal, literal_range};
pub use numbers::{run_numbers, STATE_LEN};
pub use run::{run, Outcome};
pub use state::{LastError, Loop, State, CALLS_MOST};
pub use stop::{words, Refusal};
pub use unit::{Field, Parts, Statement, LONGEST};
pub use validity::{invalid, Validity};

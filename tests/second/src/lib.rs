//! A second implementation of document 01, with document 02's W1, W5, W7, W11, W12 and W13, in plain Rust, written from the documents and not from the proved code,
//! to compare the proved library with and to measure it by.
//!
//! `parts`, `reading`, `running`, `writing`, `plans`, `sheet`, `heuristic`, `dearest` and `charge` are the operations. `call` has all that take a file as values,
//! for comparing and timing; `model`, `definition`, `generate` and `special` serve the tests.

pub mod call;
pub mod charge;
pub mod dearest;
pub mod definition;
pub mod generate;
pub mod heuristic;
#[cfg(feature = "library")]
pub mod library;
pub mod model;
pub mod parts;
pub mod plans;
pub mod reading;
pub mod refusal;
pub mod running;
pub mod sheet;
pub mod special;
pub mod writing;

pub use charge::charge;
pub use dearest::dearest;
pub use heuristic::{estimate_probe, estimate_task, relaxed_cost, Estimate};
pub use plans::{contract, expand};
pub use reading::{check_probe, check_task};
pub use refusal::{Answer, Reason, Refusal};
pub use running::{cost, run_probe, run_task};
pub use sheet::sheet;
pub use writing::compile;

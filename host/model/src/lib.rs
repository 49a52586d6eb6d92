//! What docs/SCOPE.md says, done the slow and obvious way, to be held against the proved library.
//!
//! Nothing here knows when a fault is caught. A fault is caught by an input when the circuit that
//! has it, run on that input, puts out something else than the good circuit.

mod circuit;
mod drop;
mod fault;
mod job;
mod judge;
mod real;
mod report;
mod rules;
mod sets;

pub use circuit::{backward, forward, Circuit, Gate, LONGEST_CIRCUIT, MOST_LINES};
pub use drop::{drop_caught, BLANK};
pub use fault::{catches, catches_multiple, test_for, Fault};
pub use job::{image_of, read_job, write_job, Job, LARGEST_SET, LONGEST_JOB};
pub use judge::{judge, Verdict};
pub use real::{export_real, import_real};
pub use report::report;
pub use rules::{Refusal, Told};
pub use sets::{backward_set, compact_bound, compact_set};

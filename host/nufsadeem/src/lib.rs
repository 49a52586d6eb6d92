//! Simulates k-CNOT circuits, judges sets of test vectors and makes them. The work is done by a
//! library whose every answer and refusal is proved; this crate lends it memory and gives its
//! answers Rust's shapes.
//!
//! ```
//! use nufsadeem::{gate, Circuit, Class, Fault};
//!
//! let gates = [gate(&[0, 1], 2)?, gate(&[0], 1)?].concat();
//! let circuit = Circuit::new(3, &gates);
//! let verdict = circuit.judge(&[0, 7], Class::StuckAt)?;
//! assert_eq!((verdict.caught, verdict.total), (14, 16));
//! assert_eq!(verdict.first_uncaught, Some(Fault::stuck_at(1, 2, false)));
//! # Ok::<(), nufsadeem::Refusal>(())
//! ```

mod circuit;
mod fault;
mod job;
pub mod raw;
mod real;
mod refusal;
mod verdict;

pub use circuit::{gate, Circuit};
pub use fault::{Class, Fault};
pub use job::{read_job_into, report, report_into, Job, JobHead, LONGEST_REPORT};
pub use real::{import_real, import_real_into, CircuitHead, OwnedCircuit};
pub use refusal::Refusal;
pub use verdict::Verdict;

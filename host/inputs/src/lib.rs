//! Circuits, faults, sets, job images and texts to try the library and the program with. It needs neither of them.

mod damaged_texts;
mod longest;
pub mod make;
mod random;
mod real_samples;
mod texts;

pub use damaged_texts::{damage_text, damaged_text};
pub use longest::{longest_job, LONGEST_TEXT};
pub use random::Random;
pub use real_samples::{RealAnswer, REAL_SAMPLES, SAMPLE_REAL};
pub use texts::good_text;

//! A job whose report is as long as a report can be.

use crate::tally::Tally;
use inputs::{longest_job, LONGEST_TEXT};
use model::image_of;
use nufsadeem::{report, LONGEST_REPORT};

pub fn compare(tally: &mut Tally) -> Result<(), String> {
    let text = report(&image_of(&longest_job()));
    tally.holds(text == LONGEST_TEXT, || {
        format!("the longest report: the library says {:?}", text)
    })?;
    tally.holds(text.len() == LONGEST_REPORT, || {
        format!("the longest report has not {} bytes", LONGEST_REPORT)
    })
}

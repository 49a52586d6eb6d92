//! The proved library held against the simulator: the same questions to both, and every answer,
//! refusal and byte of lent memory compared.

mod ask;
mod borders;
mod case;
mod form;
mod images;
mod lent;
mod longest_report;
mod room;
mod rounds;
mod samples;
mod sites;
mod small;
mod tally;
mod texts;

pub use tally::Tally;

/// Cases that are the same in every run, by subject.
pub const FIXED: [(&str, Part); 8] = [
    ("the samples", samples::compare),
    ("small circuits", small::compare),
    ("damaged images", images::compare),
    ("borders", borders::compare),
    ("sites", sites::compare),
    ("damaged texts", texts::compare),
    ("the form of a text", form::compare),
    ("the longest report", longest_report::compare),
];

type Part = fn(&mut Tally) -> Result<(), String>;

/// Compares one subject. Answers with the number of cases.
pub fn fixed(subject: &str, part: Part) -> Result<u64, String> {
    let mut tally = Tally::new(subject);
    part(&mut tally)?;
    Ok(tally.cases())
}

/// Random cases from a seed, so many rounds.
pub fn random(seed: u64, rounds: u64) -> Result<u64, String> {
    let mut tally = Tally::new("random cases");
    rounds::compare(&mut tally, seed, rounds)?;
    Ok(tally.cases())
}

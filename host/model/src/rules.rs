//! Refusals. A call asks its rules one after the other, in the order of their numbers, room last.

/// A rule's number and the place that is told with it.
#[derive(Clone, Copy, PartialEq, Eq, Debug)]
pub struct Refusal {
    pub number: u32,
    pub place: u32,
}

/// An answer, or the first rule that was broken.
pub type Told<T> = Result<T, Refusal>;

/// Refuses with `number` at `place` where the rule is broken.
pub fn refuse(number: u32, place: usize, broken: bool) -> Told<()> {
    if broken {
        Err(Refusal {
            number,
            place: place as u32,
        })
    } else {
        Ok(())
    }
}

/// Refuses with `number` at the first item that is bad, counted from 1.
pub fn refuse_first<T>(number: u32, items: &[T], bad: impl Fn(&T) -> bool) -> Told<()> {
    match items.iter().position(bad) {
        Some(index) => refuse(number, index + 1, true),
        None => Ok(()),
    }
}

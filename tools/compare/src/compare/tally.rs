//! How many calls of each kind were compared, and how they ended.

use crate::refusal::Refusal;
use crate::script::{Action, Call, Shape};
use std::collections::BTreeMap;
use std::fmt;

/// Counts of calls by their word and their refusal, if they were refused.
#[derive(Default)]
pub struct Tally(BTreeMap<(&'static str, Option<Refusal>), u64>);

impl Tally {
    pub fn add(&mut self, call: &Call, refusal: Option<Refusal>) {
        *self.0.entry((word(&call.action), refusal)).or_default() += 1;
    }

    pub fn add_all(&mut self, other: &Self) {
        for (key, count) in &other.0 {
            *self.0.entry(*key).or_default() += count;
        }
    }

    pub fn calls(&self) -> u64 {
        self.0.values().sum()
    }
}

impl fmt::Display for Tally {
    fn fmt(&self, f: &mut fmt::Formatter<'_>) -> fmt::Result {
        for ((word, refusal), count) in &self.0 {
            match refusal {
                None => writeln!(f, "{count:>10} {word}")?,
                Some(refusal) => writeln!(f, "{count:>10} {word} refused {}", refusal.number())?,
            }
        }
        Ok(())
    }
}

fn word(action: &Action) -> &'static str {
    match action {
        Action::Reset { .. } => "reset",
        Action::Draw(Shape::Fill { .. }) => "fill",
        Action::Draw(Shape::Run { .. }) => "run",
        Action::Open(opening) if opening.filter.is_some() => "open filter",
        Action::Open(_) => "open",
        Action::Close => "close",
        Action::Walk { .. } => "walk",
        Action::Tile { .. } => "tile",
        Action::Hit(_) => "hit",
        Action::Report => "report",
    }
}

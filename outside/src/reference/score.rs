//! Scores: how a total is made of penalties, and which of two is better.

use super::page::Line;
use std::cmp::Ordering;

#[derive(Clone, Copy, Debug, PartialEq, Eq)]
pub enum Score {
    Sum,
    Shares,
}

impl Score {
    /// The total of a row of penalties.
    pub fn total(self, penalties: impl IntoIterator<Item = u16>) -> u64 {
        penalties.into_iter().fold(self.start(), |total, penalty| self.step(total, penalty))
    }

    pub fn start(self) -> u64 {
        match self {
            Score::Sum => 0,
            Score::Shares => 1,
        }
    }

    pub fn step(self, total: u64, penalty: u16) -> u64 {
        match self {
            Score::Sum => held(u128::from(total) + u128::from(penalty), 4_294_967_295),
            Score::Shares => {
                let share = if penalty > 99 { 1 } else { 100 - u128::from(penalty) };
                held(u128::from(total) * share, 1_000_000_000_000_000_000)
            }
        }
    }

    /// Less where `one` is better than `other`.
    pub fn order(self, one: u64, other: u64) -> Ordering {
        match self {
            Score::Sum => one.cmp(&other),
            Score::Shares => other.cmp(&one),
        }
    }

    /// Whether the score takes a line: not too many cells, and no penalty too high.
    pub fn takes(self, line: &Line) -> bool {
        let (cells, highest) = match self {
            Score::Sum => (24, 65_535),
            Score::Shares => (9, 99),
        };
        let mut penalties = line.cells.iter().flat_map(|cell| &cell.alternatives).map(|one| one.penalty);
        line.cells.len() <= cells && penalties.all(|penalty| penalty <= highest)
    }
}

fn held(result: u128, limit: u64) -> u64 {
    result.min(u128::from(limit)) as u64
}

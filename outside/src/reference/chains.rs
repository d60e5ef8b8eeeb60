//! Chains: all of a line, the live ones of them, and their standing order.

use super::grammar::Grammar;
use super::page::Line;
use super::score::Score;
use std::cmp::Ordering;
use std::collections::HashSet;

/// Lines with more chains than this are not listed whole.
pub const MOST_CHAINS: usize = 20_000;

/// One alternative in each cell.
#[derive(Clone, Debug, PartialEq, Eq)]
pub struct Chain {
    pub ranks: Vec<u8>,
    pub text: Vec<u8>,
    pub total: u64,
}

impl Chain {
    fn of(line: &Line, score: Score, ranks: Vec<u8>) -> Chain {
        let taken = || line.cells.iter().zip(&ranks).map(|(cell, rank)| cell.alternatives[usize::from(*rank)]);
        let text = taken().map(|one| one.symbol).collect();
        let total = score.total(taken().map(|one| one.penalty));
        Chain { ranks, text, total }
    }

    fn last_raised(&self) -> Option<usize> {
        self.ranks.iter().rposition(|rank| *rank != 0)
    }

    pub fn is_live(&self, grammar: Grammar) -> bool {
        match self.last_raised() {
            None => true,
            Some(cell) => grammar.allows(&self.text[..cell]),
        }
    }

    /// The ranks of the chain that has the last raised cell one lower.
    fn lowered(&self) -> Option<Vec<u8>> {
        let cell = self.last_raised()?;
        let mut ranks = self.ranks.clone();
        ranks[cell] -= 1;
        Some(ranks)
    }
}

/// Less where `one` stands before `other`.
pub fn standing(score: Score, one: &Chain, other: &Chain) -> Ordering {
    score.order(one.total, other.total).then_with(|| one.ranks.cmp(&other.ranks))
}

/// How many chains a line has.
pub fn count(line: &Line) -> usize {
    line.cells.iter().fold(1, |count, cell| count.saturating_mul(cell.alternatives.len()))
}

/// Every chain of a line.
pub fn all(line: &Line, score: Score) -> Vec<Chain> {
    let mut rows: Vec<Vec<u8>> = vec![Vec::new()];
    for cell in &line.cells {
        let longer = |row: Vec<u8>| {
            (0..cell.alternatives.len() as u8).map(move |rank| {
                let mut row = row.clone();
                row.push(rank);
                row
            })
        };
        rows = rows.into_iter().flat_map(longer).collect();
    }
    rows.into_iter().map(|ranks| Chain::of(line, score, ranks)).collect()
}

/// The live chains of a line in standing order, or a beginning of that list.
#[derive(Clone, Debug)]
pub struct Ranking {
    pub chains: Vec<Chain>,
    /// Whether these are all of them.
    pub whole: bool,
}

impl Ranking {
    /// The ranking, at least its first `wanted` chains. None where that takes too long.
    pub fn of(line: &Line, grammar: Grammar, score: Score, wanted: usize) -> Option<Ranking> {
        if count(line) <= MOST_CHAINS {
            return Some(Ranking::whole(line, grammar, score));
        }
        Ranking::beginning(line, grammar, score, wanted)
    }

    /// By the definition: all chains, the live ones of them, sorted.
    pub fn whole(line: &Line, grammar: Grammar, score: Score) -> Ranking {
        let mut chains = all(line, score);
        chains.retain(|chain| chain.is_live(grammar));
        chains.sort_by(|one, other| standing(score, one, other));
        Ranking { chains, whole: true }
    }

    /// For lines with too many chains: the live chains whose total is no worse than a limit, sorted. The limit is the best with
    /// which there are enough of them.
    pub fn beginning(line: &Line, grammar: Grammar, score: Score, wanted: usize) -> Option<Ranking> {
        let best = score.total(line.cells.iter().map(|cell| cell.alternatives[0].penalty));
        let worst = score.total(line.cells.iter().map(|cell| cell.alternatives.last().unwrap().penalty));
        let limit_at = |step: u64| if worst >= best { best + step } else { best - step };
        let (mut least, mut most) = (0, worst.abs_diff(best));
        while least < most {
            let middle = least + (most - least) / 2;
            match Within::of(line, grammar, score, limit_at(middle), wanted) {
                Some(_) => least = middle + 1,
                None => most = middle,
            }
        }
        let mut chains = Within::of(line, grammar, score, limit_at(least), MOST_CHAINS)?;
        chains.sort_by(|one, other| standing(score, one, other));
        Some(Ranking { whole: least == worst.abs_diff(best), chains })
    }

    /// How many live chains are not among the first `looked` while their lowered chain is, or the chain without a raised cell
    /// before any look.
    pub fn frontier(&self, looked: usize) -> Option<usize> {
        if !self.whole {
            return None;
        }
        let (seen, unseen) = self.chains.split_at(looked);
        let seen: HashSet<&[u8]> = seen.iter().map(|chain| &chain.ranks[..]).collect();
        let is_next = |chain: &&Chain| chain.lowered().is_none_or(|lowered| seen.contains(&lowered[..]));
        Some(unseen.iter().filter(is_next).count())
    }
}

/// The search of the live chains whose total is no worse than a limit, cell by cell.
struct Within<'a> {
    line: &'a Line,
    grammar: Grammar,
    score: Score,
    limit: u64,
    most: usize,
    ranks: Vec<u8>,
    text: Vec<u8>,
    found: Vec<Chain>,
}

impl Within<'_> {
    /// The chains, or None where there are `most` or more.
    fn of(line: &Line, grammar: Grammar, score: Score, limit: u64, most: usize) -> Option<Vec<Chain>> {
        let (ranks, text, found) = (Vec::new(), Vec::new(), Vec::new());
        let mut search = Within { line, grammar, score, limit, most, ranks, text, found };
        search.go_on(score.start());
        (search.found.len() < most).then_some(search.found)
    }

    fn go_on(&mut self, total: u64) {
        let at = self.ranks.len();
        if at == self.line.cells.len() {
            let chain = Chain::of(self.line, self.score, self.ranks.clone());
            debug_assert!(chain.is_live(self.grammar));
            self.found.push(chain);
            return;
        }
        // Beginnings of allowed openings are allowed, so a cell behind one that is not can only stay unraised.
        let may_raise = self.grammar.allows(&self.text);
        let alternatives = &self.line.cells[at].alternatives;
        for (rank, one) in alternatives.iter().enumerate().take(if may_raise { alternatives.len() } else { 1 }) {
            let stepped = self.score.step(total, one.penalty);
            if self.found.len() >= self.most || !self.is_within(stepped, at + 1) {
                return;
            }
            self.ranks.push(rank as u8);
            self.text.push(one.symbol);
            self.go_on(stepped);
            self.ranks.pop();
            self.text.pop();
        }
    }

    /// Whether a total of the cells before `from` can still end no worse than the limit.
    fn is_within(&self, total: u64, from: usize) -> bool {
        let rest = self.line.cells[from..].iter().map(|cell| cell.alternatives[0].penalty);
        let end = rest.fold(total, |total, penalty| self.score.step(total, penalty));
        self.score.order(end, self.limit) != Ordering::Greater
    }
}

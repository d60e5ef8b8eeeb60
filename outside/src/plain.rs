//! The same search as it would be written without proofs: a heap of chains, each look with its children.

use std::cmp::Ordering;
use std::collections::BinaryHeap;
use std::marker::PhantomData;

pub const MOST_CELLS: usize = 24;
pub const MOST_ALTERNATIVES: usize = 8;

/// A line in fixed arrays.
#[derive(Clone)]
pub struct Line {
    cells: usize,
    counts: [u8; MOST_CELLS],
    symbols: [[u8; MOST_ALTERNATIVES]; MOST_CELLS],
    penalties: [[u16; MOST_ALTERNATIVES]; MOST_CELLS],
}

impl Line {
    fn empty() -> Line {
        Line {
            cells: 0,
            counts: [0; MOST_CELLS],
            symbols: [[0; MOST_ALTERNATIVES]; MOST_CELLS],
            penalties: [[0; MOST_ALTERNATIVES]; MOST_CELLS],
        }
    }

    /// Reads a page of one line. None where it is bad.
    pub fn read(page: &[u8]) -> Option<Line> {
        let mut line = Line::empty();
        let [1, cells @ 1..=24, rest @ ..] = page else { return None };
        let mut rest = rest;
        line.cells = usize::from(*cells);
        for cell in 0..line.cells {
            rest = line.read_cell(cell, rest)?;
        }
        rest.is_empty().then_some(line)
    }

    /// Reads one cell, and answers the bytes behind it.
    fn read_cell<'a>(&mut self, cell: usize, bytes: &'a [u8]) -> Option<&'a [u8]> {
        let [count @ 1..=8, rest @ ..] = bytes else { return None };
        let mut rest = rest;
        self.counts[cell] = *count;
        for rank in 0..usize::from(*count) {
            let [symbol @ 33..=126, high, low, behind @ ..] = rest else { return None };
            let penalty = u16::from_be_bytes([*high, *low]);
            if self.symbols[cell][..rank].contains(symbol) || (rank > 0 && penalty < self.penalties[cell][rank - 1]) {
                return None;
            }
            self.symbols[cell][rank] = *symbol;
            self.penalties[cell][rank] = penalty;
            rest = behind;
        }
        Some(rest)
    }

    pub fn cells(&self) -> usize {
        self.cells
    }
}

/// What texts are sought.
pub trait Grammar {
    /// Whether an opening is allowed, where it is known that all shorter beginnings of it are.
    fn goes_on(opening: &[u8]) -> bool;
    fn admits(text: &[u8]) -> bool;
}

pub struct Dates;

impl Grammar for Dates {
    fn goes_on(opening: &[u8]) -> bool {
        if !opening.last().is_none_or(u8::is_ascii_digit) {
            return false;
        }
        match opening.len() {
            2 => (1..=31).contains(&figures(opening)),
            4 => (1..=12).contains(&figures(&opening[2..])) && figures(&opening[..2]) <= days_of(figures(&opening[2..]), 2000),
            8 => is_day(opening),
            longer => longer < 8,
        }
    }

    fn admits(text: &[u8]) -> bool {
        text.len() == 8 && text.iter().all(u8::is_ascii_digit) && is_day(text)
    }
}

fn is_day(digits: &[u8]) -> bool {
    let (day, month, year) = (figures(&digits[..2]), figures(&digits[2..4]), figures(&digits[4..]));
    (1900..=2099).contains(&year) && (1..=12).contains(&month) && day >= 1 && day <= days_of(month, year)
}

fn days_of(month: u32, year: u32) -> u32 {
    match month {
        4 | 6 | 9 | 11 => 30,
        2 if year % 4 == 0 && (year % 100 != 0 || year % 400 == 0) => 29,
        2 => 28,
        _ => 31,
    }
}

fn figures(digits: &[u8]) -> u32 {
    digits.iter().fold(0, |number, digit| number * 10 + u32::from(digit - b'0'))
}

/// A latitude and behind it a longitude.
pub struct Positions;

impl Grammar for Positions {
    fn goes_on(opening: &[u8]) -> bool {
        match opening.len() {
            0 => true,
            8 => is_angle(opening, 2, b"NS"),
            17 => is_angle(&opening[8..], 3, b"EW"),
            long @ 1..=7 => angle_goes_on(&opening[..long], 2, 90),
            long @ 9..=16 => angle_goes_on(&opening[8..long], 3, 180),
            _ => false,
        }
    }

    fn admits(text: &[u8]) -> bool {
        text.len() == 17 && is_angle(&text[..8], 2, b"NS") && is_angle(&text[8..], 3, b"EW")
    }
}

fn angle_goes_on(opening: &[u8], degree_figures: usize, most_degrees: u32) -> bool {
    let last = opening[opening.len() - 1];
    last.is_ascii_digit()
        && (opening.len() != degree_figures || figures(opening) <= most_degrees)
        && (opening.len() != degree_figures + 1 || last <= b'5')
}

fn is_angle(text: &[u8], degree_figures: usize, letters: &[u8; 2]) -> bool {
    let (digits, letter) = text.split_at(degree_figures + 5);
    if !digits.iter().all(u8::is_ascii_digit) || digits[degree_figures] > b'5' {
        return false;
    }
    let degrees = figures(&digits[..degree_figures]);
    let size = degrees * 60_000 + figures(&digits[degree_figures..]);
    let (most, least) = if degree_figures == 2 { (5_400_000, 5_400_000) } else { (10_800_000, 10_799_999) };
    (letter[0] == letters[0] && size <= most) || (letter[0] == letters[1] && size >= 1 && size <= least)
}

/// A chain of the heap. The greatest is the best: lowest total, then lowest ranks.
#[derive(Clone, Copy, PartialEq, Eq)]
struct Chain {
    total: u32,
    ranks: [u8; MOST_CELLS],
    last_raised: u8,
}

impl Ord for Chain {
    fn cmp(&self, other: &Chain) -> Ordering {
        other.total.cmp(&self.total).then_with(|| other.ranks.cmp(&self.ranks))
    }
}

impl PartialOrd for Chain {
    fn partial_cmp(&self, other: &Chain) -> Option<Ordering> {
        Some(self.cmp(other))
    }
}

#[derive(Clone, Copy, Debug, PartialEq, Eq)]
pub enum Next {
    Found { total: u32 },
    Spent,
    Exhausted,
}

/// A search under the sum of penalties.
pub struct Search<G> {
    line: Line,
    heap: BinaryHeap<Chain>,
    granted: usize,
    looked: usize,
    grammar: PhantomData<G>,
}

impl<G: Grammar> Default for Search<G> {
    fn default() -> Self {
        Search { line: Line::empty(), heap: BinaryHeap::new(), granted: 0, looked: 0, grammar: PhantomData }
    }
}

impl<G: Grammar> Search<G> {
    pub fn load(&mut self, line: Line) {
        let total = (0..line.cells).map(|cell| u32::from(line.penalties[cell][0])).sum();
        self.line = line;
        self.heap.clear();
        self.heap.push(Chain { total, ranks: [0; MOST_CELLS], last_raised: 0 });
        (self.granted, self.looked) = (0, 0);
    }

    pub fn grant(&mut self, more: usize) {
        self.granted += more;
    }

    pub fn looked(&self) -> usize {
        self.looked
    }

    /// Looks for the next reading, and writes it to the start of `text`.
    pub fn next(&mut self, text: &mut [u8; MOST_CELLS]) -> Next {
        let cells = self.line.cells;
        while self.looked < self.granted {
            let Some(chain) = self.heap.pop() else { return Next::Exhausted };
            self.looked += 1;
            for (cell, symbol) in text[..cells].iter_mut().enumerate() {
                *symbol = self.line.symbols[cell][usize::from(chain.ranks[cell])];
            }
            self.push_children(&chain, &text[..cells]);
            if G::admits(&text[..cells]) {
                return Next::Found { total: chain.total };
            }
        }
        if self.heap.is_empty() {
            Next::Exhausted
        } else {
            Next::Spent
        }
    }

    /// Pushes the chains in which one cell more is raised by one, from the last raised on.
    fn push_children(&mut self, chain: &Chain, text: &[u8]) {
        let first = usize::from(chain.last_raised);
        for cell in first..text.len() {
            if cell > first && !G::goes_on(&text[..cell]) {
                return;
            }
            let rank = usize::from(chain.ranks[cell]);
            if rank + 1 < usize::from(self.line.counts[cell]) {
                let mut child = *chain;
                child.ranks[cell] += 1;
                child.last_raised = cell as u8;
                child.total += u32::from(self.line.penalties[cell][rank + 1] - self.line.penalties[cell][rank]);
                self.heap.push(child);
            }
        }
    }
}

#[cfg(test)]
mod tests {
    use super::*;
    use crate::cases::make;
    use crate::random::Random;
    use crate::reference::chains::Ranking;
    use crate::reference::grammar::Grammar as Definition;
    use crate::reference::page::write_page;
    use crate::reference::score::Score;

    fn as_the_ranking<G: Grammar>(definition: Definition, text: fn(&mut Random) -> Vec<u8>) {
        let mut random = Random::new(3);
        for _ in 0..300 {
            let text = text(&mut random);
            let text = if random.chance(30) { make::other_length(&mut random, &text, 24) } else { text };
            let shape = make::Shape { most_chains: 500, ..make::shape(&mut random) };
            let line = make::line_near(&mut random, &text, shape);
            let ranking = Ranking::whole(&line, definition, Score::Sum);
            let mut search = Search::<G>::default();
            search.load(Line::read(&write_page(&[line])).unwrap());
            search.grant(1_000);
            let mut place = [0; MOST_CELLS];
            for (number, chain) in ranking.chains.iter().enumerate() {
                if definition.admits(&chain.text) {
                    assert_eq!(search.next(&mut place), Next::Found { total: chain.total as u32 });
                    assert_eq!((&place[..text.len()], search.looked()), (&chain.text[..], number + 1));
                }
            }
            assert_eq!(search.next(&mut place), Next::Exhausted);
            assert_eq!(search.looked(), ranking.chains.len());
        }
    }

    #[test]
    fn dates() {
        as_the_ranking::<Dates>(Definition::Dates, make::day);
    }

    #[test]
    fn positions() {
        as_the_ranking::<Positions>(Definition::Positions, make::position);
    }
}

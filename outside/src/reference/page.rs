//! Pages: how they are read, what they are refused for, and how they are written.

use crate::interface::{Checked, COUNT, DONE, EXCESS, NONE, ORDER, SHORT, SYMBOL, TWICE};

pub const MOST_LINES: usize = 40;
pub const MOST_CELLS: usize = 24;
pub const MOST_ALTERNATIVES: usize = 8;
pub const LEAST_SYMBOL: u8 = 33;
pub const GREATEST_SYMBOL: u8 = 126;

#[derive(Clone, Copy, Debug, PartialEq, Eq, Hash)]
pub struct Alternative {
    pub symbol: u8,
    pub penalty: u16,
}

#[derive(Clone, Debug, PartialEq, Eq, Hash, Default)]
pub struct Cell {
    pub alternatives: Vec<Alternative>,
}

#[derive(Clone, Debug, PartialEq, Eq, Hash, Default)]
pub struct Line {
    pub cells: Vec<Cell>,
}

/// The first thing wrong with a page.
#[derive(Clone, Copy, Debug, PartialEq, Eq)]
pub struct Fault {
    pub number: u8,
    pub place: usize,
    pub line: Option<usize>,
    pub cell: Option<usize>,
}

/// The lines of a page, or its fault.
pub fn read_page(bytes: &[u8]) -> Result<Vec<Line>, Fault> {
    Reading { bytes, at: 0, line: None, cell: None }.page()
}

/// What is said of a page: the number answered and what stands beside it.
pub fn check_page(bytes: &[u8]) -> (u8, Checked) {
    match read_page(bytes) {
        Ok(lines) => (DONE, Checked { lines: lines.len(), place: NONE, line: NONE, cell: NONE }),
        Err(fault) => (
            fault.number,
            Checked { lines: 0, place: fault.place, line: fault.line.unwrap_or(NONE), cell: fault.cell.unwrap_or(NONE) },
        ),
    }
}

/// A page that is being read, and the line and the cell that it has come to.
struct Reading<'a> {
    bytes: &'a [u8],
    at: usize,
    line: Option<usize>,
    cell: Option<usize>,
}

impl Reading<'_> {
    fn page(&mut self) -> Result<Vec<Line>, Fault> {
        let mut lines = Vec::new();
        for number in 0..self.count(MOST_LINES)? {
            self.line = Some(number);
            lines.push(self.line()?);
        }
        self.line = None;
        if self.at < self.bytes.len() {
            return Err(self.fault(EXCESS, self.at));
        }
        Ok(lines)
    }

    fn line(&mut self) -> Result<Line, Fault> {
        let mut line = Line::default();
        for number in 0..self.count(MOST_CELLS)? {
            self.cell = Some(number);
            line.cells.push(self.cell()?);
        }
        self.cell = None;
        Ok(line)
    }

    fn cell(&mut self) -> Result<Cell, Fault> {
        let mut cell = Cell::default();
        for _ in 0..self.count(MOST_ALTERNATIVES)? {
            let next = self.alternative(&cell)?;
            cell.alternatives.push(next);
        }
        Ok(cell)
    }

    fn alternative(&mut self, before: &Cell) -> Result<Alternative, Fault> {
        let at = self.at;
        let symbol = self.byte()?;
        if !(LEAST_SYMBOL..=GREATEST_SYMBOL).contains(&symbol) {
            return Err(self.fault(SYMBOL, at));
        }
        if before.alternatives.iter().any(|one| one.symbol == symbol) {
            return Err(self.fault(TWICE, at));
        }
        let high = self.byte()?;
        let low = self.byte()?;
        let penalty = u16::from(high) * 256 + u16::from(low);
        if before.alternatives.last().is_some_and(|last| penalty < last.penalty) {
            return Err(self.fault(ORDER, at + 1));
        }
        Ok(Alternative { symbol, penalty })
    }

    fn count(&mut self, most: usize) -> Result<usize, Fault> {
        let at = self.at;
        let count = usize::from(self.byte()?);
        if count == 0 || count > most {
            return Err(self.fault(COUNT, at));
        }
        Ok(count)
    }

    fn byte(&mut self) -> Result<u8, Fault> {
        match self.bytes.get(self.at) {
            Some(byte) => {
                self.at += 1;
                Ok(*byte)
            }
            None => Err(self.fault(SHORT, self.bytes.len())),
        }
    }

    fn fault(&self, number: u8, place: usize) -> Fault {
        Fault { number, place, line: self.line, cell: self.cell }
    }
}

/// What a byte of a good page is there for.
#[derive(Clone, Copy, Debug, PartialEq, Eq)]
pub enum Part {
    Lines,
    Cells,
    Alternatives,
    Symbol,
    High,
    Low,
}

/// The bytes of a page, each with what it is there for.
pub fn written_parts(lines: &[Line]) -> Vec<(u8, Part)> {
    let mut bytes = vec![(lines.len() as u8, Part::Lines)];
    for line in lines {
        bytes.push((line.cells.len() as u8, Part::Cells));
        for cell in &line.cells {
            bytes.push((cell.alternatives.len() as u8, Part::Alternatives));
            for one in &cell.alternatives {
                bytes.push((one.symbol, Part::Symbol));
                bytes.push(((one.penalty >> 8) as u8, Part::High));
                bytes.push((one.penalty as u8, Part::Low));
            }
        }
    }
    bytes
}

/// The bytes of a page.
pub fn write_page(lines: &[Line]) -> Vec<u8> {
    written_parts(lines).into_iter().map(|(byte, _)| byte).collect()
}

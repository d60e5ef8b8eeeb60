//! The reader: its calls by the definitions. The ranking of a line is made whole, and then walked.

use super::chains::Ranking;
use super::grammar::{Grammar, Sheet};
use super::page::{read_page, Fault, Line};
use super::score::Score;
use crate::interface::*;
use std::ops::Range;
use std::rc::Rc;

/// Cells times all that is granted since a load never passes this.
pub const MOST_GRANTED: usize = 4_095;

/// A line has so many chains in a row of equal totals that its ranking takes too long to make.
#[derive(Clone, Copy, Debug, PartialEq, Eq)]
pub struct TooLong;

#[derive(Clone, Debug, PartialEq, Eq)]
pub enum Next {
    Found(Vec<u8>),
    Spent,
    Exhausted,
}

#[derive(Clone, Copy, Debug, Default, PartialEq, Eq)]
pub struct Report {
    pub cells: usize,
    pub granted: usize,
    pub looked: usize,
    pub handed: usize,
    pub places: Places,
}

/// How many places of the bench may be in use.
#[derive(Clone, Copy, Debug, Default, PartialEq, Eq)]
pub struct Places {
    /// The bound that is promised.
    pub most: usize,
    /// How many chains the frontier has. No answer is judged by it.
    pub frontier: Option<usize>,
}

#[derive(Clone, Copy, Debug, PartialEq, Eq)]
pub enum Refusal {
    Page(Fault),
    Other(u8),
}

pub struct Reader {
    grammar: Grammar,
    score: Score,
    loaded: Option<Loaded>,
    /// Rankings made so far.
    made: Vec<(Line, Rc<Ranking>)>,
}

struct Loaded {
    cells: usize,
    ranking: Rc<Ranking>,
    granted: usize,
    looked: usize,
    handed: usize,
    last_total: Option<u64>,
}

impl Reader {
    pub fn new(grammar: Grammar, score: Score) -> Reader {
        Reader { grammar, score, loaded: None, made: Vec::new() }
    }

    pub fn load(&mut self, page: &[u8], number: usize) -> Result<Result<(), Refusal>, TooLong> {
        let lines = match read_page(page) {
            Ok(lines) => lines,
            Err(fault) => return Ok(Err(Refusal::Page(fault))),
        };
        match lines.get(number) {
            Some(line) => self.take(line),
            None => Ok(Err(Refusal::Other(LINE_NUMBER))),
        }
    }

    /// Loads a line that stands in a good page.
    pub fn take(&mut self, line: &Line) -> Result<Result<(), Refusal>, TooLong> {
        if !self.score.takes(line) {
            return Ok(Err(Refusal::Other(SCORE)));
        }
        let ranking = self.ranking(line)?;
        let cells = line.cells.len();
        self.loaded = Some(Loaded { cells, ranking, granted: 0, looked: 0, handed: 0, last_total: None });
        Ok(Ok(()))
    }

    pub fn grant(&mut self, more: usize) -> Result<(), Refusal> {
        let loaded = self.loaded.as_mut().ok_or(Refusal::Other(NO_LINE))?;
        let all = loaded.granted as u128 + more as u128;
        if more == 0 || loaded.cells as u128 * all > MOST_GRANTED as u128 {
            return Err(Refusal::Other(GRANT));
        }
        loaded.granted += more;
        Ok(())
    }

    /// What a next comes to at a place of so many bytes.
    pub fn next(&mut self, place: usize) -> Result<Next, Refusal> {
        let grammar = self.grammar;
        let loaded = self.loaded.as_mut().ok_or(Refusal::Other(NO_LINE))?;
        if place < loaded.cells {
            return Err(Refusal::Other(PLACE));
        }
        let chains = &loaded.ranking.chains;
        let due = loaded.looked..loaded.granted.min(chains.len());
        for (number, chain) in chains.iter().enumerate().take(due.end).skip(due.start) {
            if grammar.admits(&chain.text) {
                loaded.looked = number + 1;
                loaded.handed += 1;
                loaded.last_total = Some(chain.total);
                return Ok(Next::Found(chain.text.clone()));
            }
        }
        loaded.looked = due.end;
        Ok(if loaded.looked < chains.len() { Next::Spent } else { Next::Exhausted })
    }

    pub fn report(&self) -> Report {
        let Some(loaded) = &self.loaded else { return Report::default() };
        Report {
            cells: loaded.cells,
            granted: loaded.granted,
            looked: loaded.looked,
            handed: loaded.handed,
            places: Places { most: 1 + loaded.looked * (loaded.cells - 1), frontier: loaded.ranking.frontier(loaded.looked) },
        }
    }

    pub fn last_total(&self) -> Option<u64> {
        self.loaded.as_ref()?.last_total
    }

    fn ranking(&mut self, line: &Line) -> Result<Rc<Ranking>, TooLong> {
        if let Some((_, ranking)) = self.made.iter().find(|(known, _)| known == line) {
            return Ok(Rc::clone(ranking));
        }
        // More than can ever be looked at, so that it shows whether a chain is left.
        let wanted = MOST_GRANTED / line.cells.len() + 1;
        let ranking = Rc::new(Ranking::of(line, self.grammar, self.score, wanted).ok_or(TooLong)?);
        self.made.push((line.clone(), Rc::clone(&ranking)));
        Ok(ranking)
    }
}

/// What a run answers, and for each row that reports how many places may be in use.
pub struct Ran {
    pub answer: u8,
    pub places: Vec<Option<Places>>,
}

/// The whole call of the C interface. What came of the rows is written into them; of a report the number of places is left 0.
pub fn run(seeking: &Seeking, pages: &[u8], places: &mut [u8], rows: &mut [Row]) -> Result<Ran, TooLong> {
    let refused = |answer| Ok(Ran { answer, places: Vec::new() });
    let known_call = |row: &Row| (LOAD..=REPORT).contains(&row.asked.call);
    let (Some(grammar), Some(score)) = (grammar_of(seeking), score_of(seeking)) else { return refused(UNKNOWN) };
    if !rows.iter().all(known_call) {
        return refused(UNKNOWN);
    }
    if matches!(grammar, Grammar::OnSheet(sheet) if !sheet.holds()) {
        return refused(TABLE);
    }
    let mut reader = Reader::new(grammar, score);
    let mut reported = Vec::new();
    for row in rows {
        let (came, in_use) = make(&mut reader, &row.asked, pages, places)?;
        row.came = came;
        reported.push(in_use);
    }
    Ok(Ran { answer: DONE, places: reported })
}

fn grammar_of(seeking: &Seeking) -> Option<Grammar> {
    let Seeking { south, north, west, east, .. } = *seeking;
    match seeking.grammar {
        DATES => Some(Grammar::Dates),
        POSITIONS => Some(Grammar::Positions),
        ON_SHEET => {
            Some(Grammar::OnSheet(Sheet { south: south.into(), north: north.into(), west: west.into(), east: east.into() }))
        }
        _ => None,
    }
}

fn score_of(seeking: &Seeking) -> Option<Score> {
    match seeking.score {
        SUM => Some(Score::Sum),
        SHARES => Some(Score::Shares),
        _ => None,
    }
}

/// Makes the call of one row.
fn make(reader: &mut Reader, asked: &Asked, pages: &[u8], places: &mut [u8]) -> Result<(Came, Option<Places>), TooLong> {
    let came = match asked.call {
        LOAD => match reader.load(&pages[part(asked, pages.len())], asked.number)? {
            Ok(()) => Came::plain(LOADED),
            Err(refusal) => refused(refusal),
        },
        GRANT_MORE => match reader.grant(asked.number) {
            Ok(()) => Came::plain(GRANTED),
            Err(refusal) => refused(refusal),
        },
        NEXT => {
            let lent = part(asked, places.len());
            let place = &mut places[lent];
            match reader.next(place.len()) {
                Ok(Next::Found(text)) => {
                    place[..text.len()].copy_from_slice(&text);
                    Came { written: text.len(), ..Came::plain(FOUND) }
                }
                Ok(Next::Spent) => Came::plain(SPENT),
                Ok(Next::Exhausted) => Came::plain(EXHAUSTED),
                Err(refusal) => refused(refusal),
            }
        }
        _ => {
            let Report { cells, granted, looked, handed, places } = reader.report();
            return Ok((Came { cells, granted, looked, handed, ..Came::plain(REPORTED) }, Some(places)));
        }
    };
    Ok((came, None))
}

fn refused(refusal: Refusal) -> Came {
    match refusal {
        Refusal::Page(fault) => Came {
            refused: fault.number.into(),
            place: fault.place,
            line: fault.line.unwrap_or(NONE),
            cell: fault.cell.unwrap_or(NONE),
            ..Came::plain(REFUSED)
        },
        Refusal::Other(number) => Came { refused: number.into(), ..Came::plain(REFUSED) },
    }
}

/// The part of the bytes lent that a row speaks of, cut off at their end.
fn part(asked: &Asked, lent: usize) -> Range<usize> {
    let start = asked.start.min(lent);
    start..start + asked.length.min(lent - start)
}

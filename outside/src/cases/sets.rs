//! The two sets of each grammar, whole where they are small: which texts are admitted, and which openings are allowed.
//!
//! A text is put as a line of one chain, which is found where the text is admitted. An opening is put with a cell of two
//! symbols behind it: the line has two live chains where the opening is allowed, and one where it is not.

use super::tally::Tally;
use crate::interface::*;
use crate::linked;
use crate::reference::grammar::{Grammar, Sheet};
use crate::reference::page::{write_page, Alternative, Cell, Line, MOST_CELLS};
use crate::reference::position::Axis;

const TEXTS_IN_A_RUN: usize = 500;
const CHART: Sheet = Sheet { south: 2_940_000, north: 3_060_000, west: -360_000, east: -120_000 };

pub fn compare(_: u64, _: std::ops::Range<usize>, tally: &mut Tally) {
    for (grammar, texts) in [(Grammar::Dates, dates()), (Grammar::Positions, positions()), (Grammar::OnSheet(CHART), on_sheet())]
    {
        for texts in texts.chunks(TEXTS_IN_A_RUN) {
            one_run(grammar, texts, tally);
        }
    }
}

/// All figures of up to so many places behind a beginning.
fn figures_behind(beginning: &str, most: usize) -> Vec<Vec<u8>> {
    let of_length = |long: usize| (0..10_usize.pow(long as u32)).map(move |number| (long, number));
    let text = |(long, number): (usize, usize)| match long {
        0 => beginning.into(),
        _ => format!("{beginning}{number:0long$}").into_bytes(),
    };
    (0..=most).flat_map(of_length).map(text).collect()
}

/// Every text that is one of these with one symbol changed.
fn changed(texts: &[&str]) -> Vec<Vec<u8>> {
    let mut all = Vec::new();
    for text in texts {
        for at in 0..text.len() {
            for symbol in 33..=126 {
                let mut other = text.as_bytes().to_vec();
                other[at] = symbol;
                all.push(other);
            }
        }
    }
    all
}

fn dates() -> Vec<Vec<u8>> {
    let mut texts = figures_behind("", 4);
    for day in 0..=40 {
        for month in 0..=20 {
            texts.extend((1890..=2110).map(|year| format!("{day:02}{month:02}{year}").into_bytes()));
        }
    }
    texts.extend(changed(&["29022000", "2902200", "31129", "010119001"]));
    texts
}

/// The texts of an axis with figures near all bounds, behind a beginning.
fn angles(beginning: &str, degrees: &[&str]) -> Vec<Vec<u8>> {
    let mut texts = Vec::new();
    for degrees in degrees {
        for minutes in ["00", "01", "59", "60", "99"] {
            for thousandths in ["000", "001", "999"] {
                let figures = format!("{beginning}{degrees}{minutes}{thousandths}");
                texts.push(figures.clone().into_bytes());
                texts.extend("NSEWnsew0".chars().map(|letter| format!("{figures}{letter}").into_bytes()));
            }
        }
    }
    texts
}

fn positions() -> Vec<Vec<u8>> {
    let mut texts = figures_behind("", 4);
    texts.extend(figures_behind("5012345N", 4));
    texts.extend(angles("", &["00", "01", "09", "59", "89", "90", "91", "99"]));
    texts.extend(angles("5012345N", &["000", "001", "059", "099", "100", "179", "180", "181", "190", "199", "999"]));
    texts.extend(changed(&["5012345N00412345W", "9000000S1795999", "5012345N00412345W0"]));
    texts
}

/// The positions at the limits of the sheet and one beside them, and their beginnings.
fn on_sheet() -> Vec<Vec<u8>> {
    let near = |limit: i64| [limit - 1, limit, limit + 1];
    let mut texts = changed(&["5012345N00412345W"]);
    for latitude in [near(CHART.south), near(CHART.north)].concat() {
        for longitude in [near(CHART.west), near(CHART.east)].concat() {
            let text = Axis::Latitude.text(latitude) + &Axis::Longitude.text(longitude);
            texts.extend((0..=text.len()).map(|end| text.as_bytes()[..end].to_vec()));
        }
    }
    texts
}

fn cell(symbols: &[u8]) -> Cell {
    Cell { alternatives: symbols.iter().map(|symbol| Alternative { symbol: *symbol, penalty: 0 }).collect() }
}

/// Puts the texts: what is said of each, whether it is admitted (no line is empty) and whether it is allowed as an opening.
fn one_run(grammar: Grammar, texts: &[Vec<u8>], tally: &mut Tally) {
    let mut pages = Vec::new();
    let mut rows = Vec::new();
    let mut add = |call, start, length, number| {
        rows.push(Row { asked: Asked { call, start, length, number }, came: Came::plain(NOT_MADE) });
    };
    for text in texts {
        let alone = Line { cells: text.iter().map(|symbol| cell(&[*symbol])).collect() };
        let mut longer = alone.clone();
        longer.cells.push(cell(b"01"));
        for (line, grant) in [(alone, 1), (longer, 3)] {
            let page = write_page(&[line]);
            add(LOAD, pages.len(), page.len(), 0);
            pages.extend(page);
            add(GRANT_MORE, 0, 0, grant);
            (0..grant).for_each(|_| add(NEXT, 0, MOST_CELLS, 0));
        }
        add(REPORT, 0, 0, 0);
    }
    let answer = linked::run(&seeking(grammar), &pages, &mut [0; MOST_CELLS], &mut rows);
    assert_eq!(answer, DONE, "the run of the sets");
    for (text, rows) in texts.iter().zip(rows.chunks(9)) {
        let (alone, report) = (rows[2].came.outcome, rows[8].came);
        let told = (alone == FOUND, report.looked == 2);
        let wanted = (grammar.admits(text), grammar.allows(text));
        let sound = (alone == FOUND || alone == EXHAUSTED || text.is_empty()) && (1..=2).contains(&report.looked);
        tally.count(if wanted.0 { "admitted" } else { "not admitted" });
        tally.count(if wanted.1 { "allowed" } else { "not allowed" });
        tally.compare(sound && told == wanted, 0, || {
            format!(
                "    {grammar:?}, {}\n    admitted, allowed: library {told:?}, reference {wanted:?}\n    {:?}",
                text.escape_ascii(),
                rows.iter().map(|row| (row.came.outcome, row.came.looked)).collect::<Vec<_>>()
            )
        });
    }
}

fn seeking(grammar: Grammar) -> Seeking {
    let (number, sheet) = match grammar {
        Grammar::Dates => (DATES, CHART),
        Grammar::Positions => (POSITIONS, CHART),
        Grammar::OnSheet(sheet) => (ON_SHEET, sheet),
    };
    Seeking {
        grammar: number,
        score: SUM,
        south: sheet.south as i32,
        north: sheet.north as i32,
        west: sheet.west as i32,
        east: sheet.east as i32,
    }
}

//! The printed list of the first dates of a page's lines.

use super::grammar::Grammar;
use super::page::{read_page, Line};
use super::reader::{Next, Reader, TooLong};
use super::score::Score;
use crate::interface::{DONE, PLACE};

pub const SHORTEST_PLACE: usize = 2_048;
pub const LOOKS: usize = 170;

/// The bytes of the list of a page.
pub fn list(page: &[u8]) -> Result<Vec<u8>, TooLong> {
    let lines = match read_page(page) {
        Ok(lines) => lines,
        Err(fault) => return Ok(format!("refused {} at {}\n", fault.number, fault.place).into_bytes()),
    };
    let mut text = String::from("line reading total looked outcome\n");
    for (number, line) in lines.iter().enumerate() {
        text += &format!("{number} {}\n", row(line)?);
    }
    Ok(text.into_bytes())
}

/// What stands behind the number of a line.
fn row(line: &Line) -> Result<String, TooLong> {
    let mut reader = Reader::new(Grammar::Dates, Score::Sum);
    reader.take(line)?.expect("every line of a good page can be loaded under Sum");
    reader.grant(LOOKS).expect("24 cells take this grant");
    let next = reader.next(line.cells.len()).expect("the place is as long as the line");
    let looked = reader.report().looked;
    Ok(match next {
        Next::Found(text) => {
            let total = reader.last_total().expect("there is a reading");
            format!("{} {total} {looked} found", String::from_utf8_lossy(&text))
        }
        Next::Spent => format!("- - {looked} spent"),
        Next::Exhausted => format!("- - {looked} exhausted"),
    })
}

pub fn list_dates(page: &[u8], place: &mut [u8], written: &mut usize) -> Result<u8, TooLong> {
    if place.len() < SHORTEST_PLACE {
        return Ok(PLACE);
    }
    let text = list(page)?;
    place[..text.len()].copy_from_slice(&text);
    *written = text.len();
    Ok(DONE)
}

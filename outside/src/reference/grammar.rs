//! Grammars: which texts are admitted, and which openings are allowed.

use super::position::{pair, Axis, TEXT_LENGTH};
use std::collections::HashSet;
use std::sync::OnceLock;

/// The limits of a sheet, in thousandths of a minute.
#[derive(Clone, Copy, Debug, PartialEq, Eq)]
pub struct Sheet {
    pub south: i64,
    pub north: i64,
    pub west: i64,
    pub east: i64,
}

#[derive(Clone, Copy, Debug, PartialEq, Eq)]
pub enum Grammar {
    Dates,
    Positions,
    OnSheet(Sheet),
}

impl Grammar {
    pub fn admits(self, text: &[u8]) -> bool {
        match self {
            Grammar::Dates => is_date(text),
            Grammar::Positions => pair(text).is_some(),
            Grammar::OnSheet(sheet) => pair(text).is_some_and(|pair| sheet.covers(pair)),
        }
    }

    pub fn allows(self, opening: &[u8]) -> bool {
        match self {
            Grammar::Dates => opens_date(opening),
            Grammar::Positions => opens_position(opening),
            // What both allow: the positions and the sheet. The sheet allows up to 16 symbols of any kind.
            Grammar::OnSheet(_) => opens_position(opening) && (opening.len() < TEXT_LENGTH || self.admits(opening)),
        }
    }
}

impl Sheet {
    /// Whether the limits are in order and in range.
    pub fn holds(self) -> bool {
        let in_range = [
            (Axis::Latitude, self.south),
            (Axis::Latitude, self.north),
            (Axis::Longitude, self.west),
            (Axis::Longitude, self.east),
        ];
        self.south <= self.north && self.west <= self.east && in_range.iter().all(|(axis, limit)| axis.range().contains(limit))
    }

    fn covers(self, (latitude, longitude): (i64, i64)) -> bool {
        (self.south..=self.north).contains(&latitude) && (self.west..=self.east).contains(&longitude)
    }
}

/// The texts of all days from 1 January 1900 to 31 December 2099, and their beginnings of two and of four symbols.
struct Calendar {
    days: HashSet<[u8; 8]>,
    days_of_months: HashSet<[u8; 4]>,
    days_of_any: HashSet<[u8; 2]>,
}

fn calendar() -> &'static Calendar {
    static MADE: OnceLock<Calendar> = OnceLock::new();
    MADE.get_or_init(|| {
        let days: HashSet<[u8; 8]> = all_days().into_iter().map(|(day, month, year)| date_text(day, month, year)).collect();
        Calendar {
            days_of_months: days.iter().map(|text| text[..4].try_into().unwrap()).collect(),
            days_of_any: days.iter().map(|text| text[..2].try_into().unwrap()).collect(),
            days,
        }
    })
}

/// Every day from 1 January 1900 to 31 December 2099, as day, month and year.
pub fn all_days() -> Vec<(u32, u32, u32)> {
    (FIRST_DAY..).map(day_of_count).take_while(|(_, _, year)| *year < 2100).collect()
}

/// The count of 1 January 1900, where 1 March of the year 0 is counted 0.
const FIRST_DAY: u32 = 693_901;

/// Day, month and year of a count of days. Years are taken to begin with March, so that a leap day is the last of its year.
fn day_of_count(count: u32) -> (u32, u32, u32) {
    let (era, in_era) = (count / 146_097, count % 146_097);
    let year = (in_era - in_era / 1_460 + in_era / 36_524 - in_era / 146_096) / 365;
    let in_year = in_era - (365 * year + year / 4 - year / 100);
    let from_march = (5 * in_year + 2) / 153;
    let day = in_year - (153 * from_march + 2) / 5 + 1;
    let (month, later) = if from_march < 10 { (from_march + 3, 0) } else { (from_march - 9, 1) };
    (day, month, era * 400 + year + later)
}

fn date_text(day: u32, month: u32, year: u32) -> [u8; 8] {
    format!("{day:02}{month:02}{year:04}").into_bytes().try_into().unwrap()
}

fn is_date(text: &[u8]) -> bool {
    <[u8; 8]>::try_from(text).is_ok_and(|text| calendar().days.contains(&text))
}

fn opens_date(opening: &[u8]) -> bool {
    let long = opening.len();
    long <= 8
        && opening.iter().all(u8::is_ascii_digit)
        && (long < 2 || calendar().days_of_any.contains(&opening[..2]))
        && (long < 4 || calendar().days_of_months.contains(&opening[..4]))
        && (long < 8 || is_date(opening))
}

/// What a latitude with a longitude behind it allows, cut behind eight symbols.
fn opens_position(opening: &[u8]) -> bool {
    let cut = Axis::Latitude.length();
    if opening.len() <= cut {
        return opens_axis(Axis::Latitude, opening);
    }
    let (head, tail) = opening.split_at(cut);
    Axis::Latitude.angle(head).is_some() && opens_axis(Axis::Longitude, tail)
}

fn opens_axis(axis: Axis, opening: &[u8]) -> bool {
    let (long, figures) = (opening.len(), axis.figures());
    let most_degrees: &[u8] = match axis {
        Axis::Latitude => b"90",
        Axis::Longitude => b"180",
    };
    if long == axis.length() {
        return axis.angle(opening).is_some();
    }
    long < axis.length()
        && opening.iter().all(u8::is_ascii_digit)
        && (long < figures || &opening[..figures] <= most_degrees)
        && (long <= figures || opening[figures] <= b'5')
}

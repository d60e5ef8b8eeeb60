//! Positions: the text of an angle is made from its number, and a text is read by finding the number whose text it is.

use crate::interface::{DONE, PLACE, POSITION};

pub const TEXT_LENGTH: usize = 17;

#[derive(Clone, Copy, Debug, PartialEq, Eq)]
pub enum Axis {
    Latitude,
    Longitude,
}

impl Axis {
    /// Least and greatest angle, in thousandths of a minute.
    pub fn range(self) -> std::ops::RangeInclusive<i64> {
        match self {
            Axis::Latitude => -5_400_000..=5_400_000,
            Axis::Longitude => -10_799_999..=10_800_000,
        }
    }

    /// How many figures the degrees have.
    pub fn figures(self) -> usize {
        match self {
            Axis::Latitude => 2,
            Axis::Longitude => 3,
        }
    }

    /// How many symbols a text has.
    pub fn length(self) -> usize {
        self.figures() + 6
    }

    /// The letters of the angles not below zero and of those below.
    pub fn letters(self) -> (char, char) {
        match self {
            Axis::Latitude => ('N', 'S'),
            Axis::Longitude => ('E', 'W'),
        }
    }

    /// The text of an angle.
    pub fn text(self, angle: i64) -> String {
        let size = angle.abs();
        let letter = if angle < 0 { self.letters().1 } else { self.letters().0 };
        format!("{:0figures$}{:02}{:03}{letter}", size / 60_000, size / 1_000 % 60, size % 1_000, figures = self.figures())
    }

    /// The angle in range whose text this is.
    pub fn angle(self, text: &[u8]) -> Option<i64> {
        let text = std::str::from_utf8(text).ok()?;
        if text.len() != self.length() || !text.is_ascii() {
            return None;
        }
        let figures = self.figures();
        let degrees: i64 = text[..figures].parse().ok()?;
        let minutes: i64 = text[figures..figures + 2].parse().ok()?;
        let thousandths: i64 = text[figures + 2..figures + 5].parse().ok()?;
        let size = degrees * 60_000 + minutes * 1_000 + thousandths;
        [size, -size].into_iter().find(|angle| self.range().contains(angle) && self.text(*angle) == text)
    }
}

/// The pair of a position text.
pub fn pair(text: &[u8]) -> Option<(i64, i64)> {
    if text.len() != TEXT_LENGTH {
        return None;
    }
    let (latitude, longitude) = text.split_at(Axis::Latitude.length());
    Some((Axis::Latitude.angle(latitude)?, Axis::Longitude.angle(longitude)?))
}

/// The text of a pair, where it is in range.
pub fn text(latitude: i64, longitude: i64) -> Option<String> {
    let in_range = Axis::Latitude.range().contains(&latitude) && Axis::Longitude.range().contains(&longitude);
    in_range.then(|| Axis::Latitude.text(latitude) + &Axis::Longitude.text(longitude))
}

pub fn read_position(text: &[u8], latitude: &mut i32, longitude: &mut i32) -> u8 {
    let Some((north, east)) = pair(text) else { return POSITION };
    *latitude = north as i32;
    *longitude = east as i32;
    DONE
}

pub fn write_position(latitude: i32, longitude: i32, place: &mut [u8], written: &mut usize) -> u8 {
    let Some(text) = text(i64::from(latitude), i64::from(longitude)) else { return POSITION };
    if place.len() < TEXT_LENGTH {
        return PLACE;
    }
    place[..TEXT_LENGTH].copy_from_slice(text.as_bytes());
    *written = TEXT_LENGTH;
    DONE
}

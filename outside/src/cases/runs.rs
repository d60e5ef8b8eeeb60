//! Runs: rows of calls on a new reader.

use super::make;
use super::tally::{first_difference, hex, Tally};
use crate::interface::*;
use crate::linked;
use crate::memory::{watch, MOST_REFUSED, NEVER};
use crate::random::Random;
use crate::reference::chains::{self, MOST_CHAINS};
use crate::reference::page::{read_page, write_page, Line};
use crate::reference::position::Axis;
use crate::reference::reader::{self, Places, Ran};
use crate::reference::score::Score;
use std::ops::Range;

const KIND: u64 = 4;
/// Bytes before and behind the places, and rows before and behind the rows, that no call may touch.
const MARGIN: usize = 32;

pub fn compare(draw: u64, cases: Range<usize>, tally: &mut Tally) {
    for case in cases {
        let mut random = Random::of_case(draw, KIND, case as u64);
        let made = Case::random(&mut random);
        judge(&made, case, tally);
    }
}

struct Case {
    seeking: Seeking,
    pages: Vec<u8>,
    places: usize,
    rows: Vec<Row>,
}

impl Case {
    fn random(random: &mut Random) -> Case {
        let wanted = Wanted::random(random);
        let seeking = wanted.seeking(random);
        let (pages, parts) = pages(random, &wanted);
        let places = random.pick(&[0, 8, 17, 24, 40, 60, 60, 100, 100, 300]);
        let calls = random.pick(&[0, 1, 3, 8, 15, 30, 30, 60]);
        let mut rows: Vec<Row> = Vec::new();
        let score = if seeking.score == SHARES { Score::Shares } else { Score::Sum };
        let mut script =
            Script { random, parts: &parts, pages: &pages, places, score, loaded: false, cells: 8, chains: 1, granted: 0 };
        let orderly = script.random.chance(88);
        for number in 0..calls {
            let asked = if orderly && number < 2 { script.opening(number) } else { script.any() };
            rows.push(Row { asked, came: unmade() });
        }
        if !rows.is_empty() && random.chance(2) {
            let at = random.below(rows.len());
            rows[at].asked.call = random.pick(&[0, 5, 6, 100, u32::MAX]);
        }
        Case { seeking, pages, places, rows }
    }

    fn show(&self) -> String {
        let row = |(number, row): (usize, &Row)| format!("        {number}: {}", show_asked(&row.asked));
        let rows: Vec<String> = self.rows.iter().enumerate().map(row).collect();
        format!(
            "    {:?}\n    pages: {}\n    places of {} bytes\n    rows:\n{}",
            self.seeking,
            hex(&self.pages),
            self.places,
            rows.join("\n")
        )
    }
}

/// What stands in a row before it is made; also what is to stand there still where nothing is written.
fn unmade() -> Came {
    Came {
        outcome: NOT_MADE,
        refused: 91,
        place: 92,
        line: 93,
        cell: 94,
        written: 95,
        cells: 96,
        granted: 97,
        looked: 98,
        handed: 99,
        places: 90,
    }
}

fn show_asked(asked: &Asked) -> String {
    let Asked { call, start, length, number } = asked;
    match *call {
        LOAD => format!("load bytes {start} on, {length} of them, line {number}"),
        GRANT_MORE => format!("grant {number} (start {start}, length {length})"),
        NEXT => format!("next, place {start} on, {length} bytes (number {number})"),
        REPORT => format!("report (start {start}, length {length}, number {number})"),
        other => format!("call {other} (start {start}, length {length}, number {number})"),
    }
}

/// What is sought, and the lines that go with it.
struct Wanted {
    grammar: u32,
    score: u32,
    position: (i64, i64),
}

impl Wanted {
    fn random(random: &mut Random) -> Wanted {
        Wanted {
            grammar: random.pick(&[DATES, DATES, POSITIONS, ON_SHEET, ON_SHEET]),
            score: random.pick(&[SUM, SUM, SHARES]),
            position: (make::angle(random, Axis::Latitude), make::angle(random, Axis::Longitude)),
        }
    }

    fn seeking(&self, random: &mut Random) -> Seeking {
        let (latitude, longitude) = self.position;
        let [south, north] = limits(random, latitude, Axis::Latitude);
        let [west, east] = limits(random, longitude, Axis::Longitude);
        let mut seeking = Seeking { grammar: self.grammar, score: self.score, south, north, west, east };
        if random.chance(1) {
            seeking.grammar = random.pick(&[0, 4, 5, u32::MAX]);
        }
        if random.chance(1) {
            seeking.score = random.pick(&[0, 3, u32::MAX]);
        }
        seeking
    }

    fn line(&self, random: &mut Random) -> Line {
        let text = match self.grammar {
            DATES => make::day(random),
            _ => self.position_text(random),
        };
        let text = match (self.grammar, self.score) {
            // Shares take nine cells.
            (POSITIONS | ON_SHEET, SHARES) if random.chance(85) => make::other_length(random, &text, 9),
            _ if random.chance(15) => make::other_length(random, &text, 24),
            _ => text,
        };
        let mut shape = make::shape(random);
        if random.chance(10) {
            shape = make::Shape { most_chains: usize::MAX >> 4, most_alternatives: 8, growth: make::Growth::Wide, ..shape };
        }
        if self.score == SHARES && !random.chance(8) {
            // The other growths soon come to the highest penalty, and stay there.
            let growth = if shape.most_chains > MOST_CHAINS || random.chance(60) { make::Growth::Small } else { shape.growth };
            let highest = random.pick(&[99, 99, 99, 99, 99, 99, 99, 100]);
            shape = make::Shape { highest, growth, ..shape };
        }
        make::line_near(random, &text, shape)
    }

    /// Most often a position near the one that the sheet is made around.
    fn position_text(&self, random: &mut Random) -> Vec<u8> {
        if random.chance(15) {
            return make::position(random);
        }
        let near = |random: &mut Random, angle: i64, axis: Axis| {
            let moved = angle + random.pick(&[0, 0, 1, -1, 10, 1_000, -60_000]);
            axis.text(moved.clamp(*axis.range().start(), *axis.range().end()))
        };
        let text = near(random, self.position.0, Axis::Latitude) + &near(random, self.position.1, Axis::Longitude);
        text.into_bytes()
    }
}

/// The two limits of an axis around an angle, at times out of order or out of range.
fn limits(random: &mut Random, angle: i64, axis: Axis) -> [i32; 2] {
    let (least, greatest) = (*axis.range().start(), *axis.range().end());
    let far = |random: &mut Random| random.pick(&[0, 0, 1, 5, 1_000, 60_000, 600_000, 6_000_000]);
    let mut low = (angle - far(random)).max(least);
    let mut high = (angle + far(random)).min(greatest);
    if random.chance(2) {
        low = random.pick(&[least - 1, least, i64::from(i32::MIN), high + 1]);
    }
    if random.chance(2) {
        high = random.pick(&[greatest + 1, greatest, i64::from(i32::MAX), low - 1]);
    }
    [low as i32, high as i32]
}

/// The bytes of some pages, and the part that each is.
fn pages(random: &mut Random, wanted: &Wanted) -> (Vec<u8>, Vec<Range<usize>>) {
    let (mut bytes, mut parts) = (Vec::new(), Vec::new());
    for _ in 0..random.between(1, 3) {
        let lines = random.pick(&[1, 1, 2, 3]);
        let lines: Vec<Line> = (0..lines).map(|_| wanted.line(random)).collect();
        let mut page = write_page(&lines);
        match random.below(25) {
            0 => page = Vec::new(),
            1 => page.truncate(random.below(page.len())),
            2 | 3 => {
                let at = random.below(page.len());
                page[at] = random.byte();
            }
            4 => page = make_many(random),
            _ => {}
        }
        if random.chance(10) {
            bytes.extend((0..random.below(5)).map(|_| random.byte()));
        }
        parts.push(bytes.len()..bytes.len() + page.len());
        bytes.extend(page);
    }
    (bytes, parts)
}

/// A page of many short lines.
fn make_many(random: &mut Random) -> Vec<u8> {
    let lines = random.between(1, 40);
    write_page(&make::any_lines(random, lines, 4, 3))
}

/// Makes the rows, and keeps about in mind what has been granted.
struct Script<'a> {
    random: &'a mut Random,
    parts: &'a [Range<usize>],
    pages: &'a [u8],
    places: usize,
    score: Score,
    loaded: bool,
    cells: usize,
    /// How many chains the line has, where they are few.
    chains: usize,
    granted: usize,
}

impl Script<'_> {
    /// The first rows of an orderly run: a load and a grant.
    fn opening(&mut self, number: usize) -> Asked {
        if number == 0 {
            return self.good_load();
        }
        let most = 4_095 / self.cells;
        let number = self.random.pick(&[most, most, most, most / 2, 20, 5, self.chains]);
        if number <= most {
            self.granted += number;
        }
        self.asked(GRANT_MORE, 0, 0, number)
    }

    fn any(&mut self) -> Asked {
        if !self.loaded && self.random.chance(40) {
            return self.good_load();
        }
        match self.random.below(100) {
            0..=5 => self.good_load(),
            6 | 7 => self.odd_load(),
            8..=19 => self.grant(),
            20..=84 => self.next(),
            _ => {
                let (start, length, number) = (self.any_number(), self.any_number(), self.any_number());
                self.asked(REPORT, start, length, number)
            }
        }
    }

    fn asked(&mut self, call: u32, start: usize, length: usize, number: usize) -> Asked {
        Asked { call, start, length, number }
    }

    fn any_number(&mut self) -> usize {
        let small = self.random.below(300);
        self.random.pick(&[0, 1, small, small, usize::MAX, usize::MAX - small, 1 << 63])
    }

    fn good_load(&mut self) -> Asked {
        let part = self.random.pick(&(0..self.parts.len()).collect::<Vec<_>>());
        let part = self.parts[part].clone();
        let lines = read_page(&self.pages[part.clone()]).unwrap_or_default();
        let number = if self.random.chance(92) {
            self.random.below(lines.len().max(1))
        } else {
            self.random.pick(&[lines.len(), 40, usize::MAX])
        };
        if let Some(line) = lines.get(number).filter(|line| self.score.takes(line)) {
            self.loaded = true;
            self.chains = chains::count(line);
            self.cells = line.cells.len();
            self.granted = 0;
        }
        // The last part may be asked for with too great a length: it is cut off there.
        let last = part.end == self.pages.len() && self.random.chance(30);
        let length = if last { self.random.pick(&[usize::MAX, part.len() + 1, usize::MAX - part.start]) } else { part.len() };
        self.asked(LOAD, part.start, length, number)
    }

    fn odd_load(&mut self) -> Asked {
        let part = self.parts[self.random.below(self.parts.len())].clone();
        let start = part.start.wrapping_add(self.random.pick(&[0, 0, 1, usize::MAX]));
        let length = part.len().wrapping_add(self.random.pick(&[0, 1, usize::MAX]));
        if self.random.chance(30) {
            let (start, length) = (self.any_number(), self.any_number());
            return self.asked(LOAD, start, length, 0);
        }
        self.asked(LOAD, start, length, 0)
    }

    fn grant(&mut self) -> Asked {
        let left = (4_095 / self.cells).saturating_sub(self.granted);
        let few = self.random.between(1, 12);
        let to_the_last = self.chains.saturating_sub(self.granted);
        let number = self.random.pick(&[
            few,
            few,
            few,
            1,
            2,
            50,
            100,
            left,
            left,
            left,
            left / 2,
            to_the_last,
            to_the_last,
            to_the_last.saturating_sub(1),
            left + 1,
            0,
            4_095,
            4_096,
            usize::MAX,
            usize::MAX / 8 + 1,
            usize::MAX - self.granted + 1,
        ]);
        if number <= left {
            self.granted += number;
        }
        let (start, length) = (self.any_number(), self.any_number());
        self.asked(GRANT_MORE, start, length, number)
    }

    fn next(&mut self) -> Asked {
        let start = self.random.below(self.places + 1);
        let length = self.random.pick(&[self.cells, self.cells, 24, 100, usize::MAX, self.cells - 1, 0]);
        if self.random.chance(75) {
            // A place that is long enough, where there is one.
            let start = self.random.below(self.places.saturating_sub(self.cells) + 1);
            return self.asked(NEXT, start, self.cells, 0);
        }
        let start = if self.random.chance(5) { self.any_number() } else { start };
        let number = self.any_number();
        self.asked(NEXT, start, length, number)
    }
}

fn judge(case: &Case, number: usize, tally: &mut Tally) {
    let mut wanted_places = pattern(case.places + 2 * MARGIN);
    let mut wanted_rows = case.rows.clone();
    let lent = MARGIN..MARGIN + case.places;
    let Ok(wanted) = reader::run(&case.seeking, &case.pages, &mut wanted_places[lent.clone()], &mut wanted_rows) else {
        tally.left_out += 1;
        return;
    };
    let outside = Row { asked: Asked { call: 81, start: 82, length: 83, number: 84 }, came: unmade() };
    let mut places = pattern(case.places + 2 * MARGIN);
    let mut rows = vec![outside; case.rows.len() + 2];
    let of_run = 1..1 + case.rows.len();
    rows[of_run.clone()].copy_from_slice(&case.rows);
    let (seeking, pages) = (case.seeking, case.pages.clone());
    let (lent_places, lent_rows) = (&mut places[lent.clone()], &mut rows[of_run.clone()]);
    let (answer, memory) = watch(NEVER, || linked::run(&seeking, &pages, lent_places, lent_rows));

    let untouched = rows[0] == outside && rows[rows.len() - 1] == outside && seeking == case.seeking && pages == case.pages;
    let bad_row = (0..case.rows.len()).find(|row| !is_right(&rows[1 + row], &wanted_rows[*row], &wanted, *row));
    // Memory is asked for last, where nothing else is refused.
    let memory_is_right = memory.left == 0 && (memory.asked > 0) == (wanted.answer == DONE);
    let same = answer == wanted.answer && memory_is_right && untouched && bad_row.is_none() && places == wanted_places;
    count(tally, &wanted, &wanted_rows, &rows[of_run.clone()]);
    tally.compare(same, number, || {
        let came = |rows: &[Row]| {
            let told: Vec<String> = rows.iter().enumerate().map(|(row, it)| format!("        {row}: {:?}", it.came)).collect();
            told.join("\n")
        };
        format!(
            "{}\n    first row that differs: {bad_row:?}; all else untouched: {untouched}; first place that differs: {:?} ({MARGIN} bytes stand before the places)\n    library:   {answer}, {memory:?}\n{}\n    places: {}\n    reference: {}\n{}\n    places: {}",
            case.show(),
            first_difference(&places, &wanted_places),
            came(&rows[of_run.clone()]),
            hex(&places),
            wanted.answer,
            came(&wanted_rows),
            hex(&wanted_places),
        )
    });
    if number % 10 == 0 {
        for at in 0..memory.asked.min(MOST_REFUSED) {
            judge_without_memory(case, number, at..usize::MAX, None, tally);
            judge_without_memory(case, number, at..at + 1, Some((&wanted_rows, &wanted_places[lent.clone()])), tally);
        }
    }
}

/// Memory is refused: nothing is written. Where it is refused once, the library may ask again and go on; then all is as `else_wanted`.
fn judge_without_memory(
    case: &Case,
    number: usize,
    refused: Range<usize>,
    else_wanted: Option<(&[Row], &[u8])>,
    tally: &mut Tally,
) {
    let mut places = pattern(case.places + 2 * MARGIN)[MARGIN..MARGIN + case.places].to_vec();
    let before = places.clone();
    let mut rows = case.rows.clone();
    let (answer, memory) = watch(refused.clone(), || linked::run(&case.seeking, &case.pages, &mut places, &mut rows));
    tally.count("runs with memory refused");
    let same = match else_wanted {
        Some((wanted_rows, wanted_places)) if answer == DONE => {
            let outcomes = |rows: &[Row]| rows.iter().map(|row| Came { places: 0, ..row.came }).collect::<Vec<_>>();
            tally.count("runs gone on after memory was refused once");
            places == wanted_places && outcomes(&rows) == outcomes(wanted_rows)
        }
        _ => answer == MEMORY && places == before && rows == case.rows,
    };
    tally.compare(same && memory.left == 0, number, || {
        format!(
            "{}\n    memory refused at {refused:?}\n    library: {answer}, {memory:?}\n    places: {}",
            case.show(),
            hex(&places)
        )
    });
}

fn pattern(long: usize) -> Vec<u8> {
    (0..long).map(|at| 128 + (at % 113) as u8).collect()
}

/// Whether a row is as the reference has it. Of the places in use only the bound is judged.
fn is_right(row: &Row, wanted: &Row, ran: &Ran, number: usize) -> bool {
    match places_of(ran, number) {
        None => row == wanted,
        Some(places) => {
            let mut told = *row;
            told.came.places = wanted.came.places;
            told == *wanted && row.came.places <= places.most
        }
    }
}

fn places_of(ran: &Ran, number: usize) -> Option<Places> {
    ran.places.get(number).copied().flatten()
}

fn count(tally: &mut Tally, ran: &Ran, wanted: &[Row], rows: &[Row]) {
    if ran.answer != DONE {
        tally.count(if ran.answer == TABLE { "runs with a bad table" } else { "runs with unknown numbers" });
        return;
    }
    for (number, row) in wanted.iter().enumerate() {
        tally.count(match row.came.outcome {
            LOADED => "loaded",
            GRANTED => "granted",
            FOUND => "found",
            SPENT => "spent",
            EXHAUSTED => "exhausted",
            REPORTED => "reported",
            _ => REFUSALS[row.came.refused as usize],
        });
        if let Some(frontier) = places_of(ran, number).and_then(|places| places.frontier) {
            let as_frontier = rows[number].came.places == frontier;
            tally.count(if as_frontier { "places as the frontier" } else { "places unlike the frontier" });
        }
    }
}

const REFUSALS: [&str; 14] = [
    "",
    "refused 1",
    "refused 2",
    "refused 3",
    "refused 4",
    "refused 5",
    "refused 6",
    "refused 7",
    "refused 8",
    "refused 9",
    "refused 10",
    "",
    "",
    "refused 13",
];

//! Printed lists of dates.

use super::make;
use super::tally::{first_difference, hex, Tally};
use crate::interface::{DONE, MEMORY, NONE};
use crate::linked;
use crate::memory::{watch, MOST_REFUSED, NEVER};
use crate::random::Random;
use crate::reference::dates::list_dates;
use crate::reference::page::{write_page, Line};

const KIND: u64 = 2;
const PLACES: [usize; 8] = [2_048, 2_048, 2_048, 2_049, 3_000, 2_047, 0, 1];
/// Bytes before and behind the place that no call may touch.
const MARGIN: usize = 64;

pub fn compare(draw: u64, cases: std::ops::Range<usize>, tally: &mut Tally) {
    for case in cases {
        let mut random = Random::of_case(draw, KIND, case as u64);
        let page = page(&mut random);
        let place = if random.chance(3) { random.below(2_048) } else { random.pick(&PLACES) };
        judge(&page, place, case, tally);
    }
}

fn page(random: &mut Random) -> Vec<u8> {
    let lines = random.pick(&[1, 1, 2, 3, 5, 12, 40]);
    let lines = if lines == 40 { 40 } else { random.between(1, lines) };
    let mut page = write_page(&(0..lines).map(|_| line(random)).collect::<Vec<_>>());
    if random.chance(12) {
        let at = random.below(page.len());
        page[at] = random.byte();
    }
    page
}

fn line(random: &mut Random) -> Line {
    let text = make::day(random);
    let text = if random.chance(20) { make::other_length(random, &text, 24) } else { text };
    if random.chance(30) {
        return hard_line(random, &text);
    }
    let shape = make::shape(random);
    make::line_near(random, &text, shape)
}

/// A line with up to eight alternatives in every cell, whose totals seldom are the same.
fn hard_line(random: &mut Random, text: &[u8]) -> Line {
    let shape =
        make::Shape { most_chains: usize::MAX >> 4, most_alternatives: 8, growth: make::Growth::Wide, ..make::shape(random) };
    make::line_near(random, text, shape)
}

/// A pattern, so that every byte that is written shows.
fn pattern(long: usize) -> Vec<u8> {
    (0..long).map(|at| 128 + (at % 113) as u8).collect()
}

fn judge(page: &[u8], long: usize, case: usize, tally: &mut Tally) {
    let mut wanted = pattern(long + 2 * MARGIN);
    let mut wanted_written = NONE;
    let Ok(wanted_answer) = list_dates(page, &mut wanted[MARGIN..MARGIN + long], &mut wanted_written) else {
        tally.left_out += 1;
        return;
    };
    let mut place = pattern(long + 2 * MARGIN);
    let mut written = NONE;
    let lent = &mut place[MARGIN..MARGIN + long];
    let (answer, memory) = watch(NEVER, || linked::list_dates(page, lent, &mut written));
    if wanted_answer == DONE {
        let text = String::from_utf8_lossy(&wanted[MARGIN..MARGIN + wanted_written]).into_owned();
        for word in ["found", "spent", "exhausted", "refused"] {
            (0..text.matches(word).count()).for_each(|_| tally.count(word));
        }
    } else {
        tally.count("short places");
    }
    let same = (answer, written) == (wanted_answer, wanted_written) && place == wanted && memory.left == 0;
    tally.compare(same, case, || {
        format!(
            "    page: {}\n    place of {long} bytes, first difference at {:?} ({MARGIN} bytes stand before the place)\n    library:   {answer}, {written} written, {memory:?}\n{}\n    reference: {wanted_answer}, {wanted_written} written\n{}",
            hex(page),
            first_difference(&place, &wanted),
            shown(&place),
            shown(&wanted),
        )
    });
    if case % 10 == 0 {
        (0..memory.asked.min(MOST_REFUSED)).for_each(|at| judge_without_memory(page, long, at, case, tally));
    }
}

/// Memory is refused from some time on: nothing is written, whatever the place and the page are.
fn judge_without_memory(page: &[u8], long: usize, refused: usize, case: usize, tally: &mut Tally) {
    let mut place = pattern(long + 2 * MARGIN);
    let mut written = NONE;
    let lent = &mut place[MARGIN..MARGIN + long];
    let (answer, memory) = watch(refused..usize::MAX, || linked::list_dates(page, lent, &mut written));
    tally.count("memory refused");
    let same = (answer, written, memory.left) == (MEMORY, NONE, 0) && place == pattern(long + 2 * MARGIN);
    tally.compare(same, case, || {
        format!(
            "    page: {}\n    place of {long} bytes, memory refused from {refused} on\n    library: {answer}, {written} written, {memory:?}\n{}",
            hex(page),
            shown(&place)
        )
    });
}

/// What was written, without the pattern.
fn shown(place: &[u8]) -> String {
    let written = place.iter().filter(|byte| **byte < 128);
    written.map(|byte| if *byte == b'\n' { "\n".into() } else { byte.escape_ascii().to_string() }).collect()
}

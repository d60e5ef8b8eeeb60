//! Positions, read and written.

use super::make;
use super::tally::{hex, Tally};
use crate::interface::{DONE, NONE};
use crate::linked;
use crate::memory::{watch, NEVER, NO_MEMORY};
use crate::random::Random;
use crate::reference::position::{self, Axis};

const KIND: u64 = 3;
const MARGIN: usize = 16;

const TEXTS: [&str; 28] = [
    "",
    "5012345N00412345W",
    "9000000N18000000E",
    "9000000S17959999W",
    "9000001N00000000E",
    "9000001S00000000E",
    "8959999N00000000E",
    "5060000N00000000E",
    "5059999N00000000E",
    "0000000S00000000E",
    "0000000N00000000W",
    "0000000N00000000E",
    "0000001S00000001W",
    "0000000N18000000W",
    "0000000N18000001E",
    "0000000N17960000E",
    "0000000N18059999E",
    "5012345E00412345W",
    "5012345W00412345N",
    "5012345n00412345w",
    "501234N00412345W",
    "50123456N00412345W",
    "5012345N0412345W",
    "5012345N00412345",
    "5012345N00412345W0",
    "+012345N00412345W",
    "-000001N00000001E",
    " 012345N00412345W",
];

pub fn compare(draw: u64, cases: std::ops::Range<usize>, tally: &mut Tally) {
    for text in TEXTS {
        judge_text(text.as_bytes(), 0, tally);
    }
    for letter in 0..=255 {
        for at in [0, 6, 7, 8, 16] {
            let mut text = *b"5012345N00412345W";
            text[at] = letter;
            judge_text(&text, 0, tally);
        }
    }
    for latitude in edges(Axis::Latitude) {
        for longitude in edges(Axis::Longitude) {
            for place in [0, 16, 17, 18, 30] {
                judge_pair(latitude, longitude, place, 0, tally);
            }
        }
    }
    for case in cases {
        let mut random = Random::of_case(draw, KIND, case as u64);
        let text = text(&mut random);
        judge_text(&text, case, tally);
        let (latitude, longitude) = pair(&mut random);
        judge_pair(latitude, longitude, random.below(31), case, tally);
        judge_pair(latitude, longitude, 17, case, tally);
    }
}

fn edges(axis: Axis) -> Vec<i32> {
    let (least, greatest) = (*axis.range().start() as i32, *axis.range().end() as i32);
    vec![
        0,
        1,
        -1,
        59_999,
        60_000,
        -60_000,
        least,
        least - 1,
        least + 1,
        greatest,
        greatest + 1,
        greatest - 1,
        i32::MIN,
        i32::MAX,
        -greatest,
        -least,
    ]
}

/// A good text, or one with something changed.
fn text(random: &mut Random) -> Vec<u8> {
    let mut text = make::position(random);
    match random.below(8) {
        0 | 1 => {}
        2 => {
            let at = random.below(text.len());
            text[at] = random.byte();
        }
        3 => {
            for _ in 0..random.between(1, 4) {
                let at = random.below(text.len());
                text[at] = random.pick(b"0123456789NSEW");
            }
        }
        4 => text[random.pick(&[7, 16])] = random.pick(b"NSEWnsew0"),
        5 => text = make::other_length(random, &text, 24),
        6 => {
            // Degrees and minutes near their bounds.
            let latitude = random.pick(&["89599", "90000", "90001", "90599", "59600", "00000", "00600"]);
            let longitude = random.pick(&["179599", "180000", "180001", "180599", "181000", "000000", "000600", "999999"]);
            text[..5].copy_from_slice(latitude.as_bytes());
            text[8..14].copy_from_slice(longitude.as_bytes());
        }
        _ => {
            text = (0..17).map(|at| if at == 7 || at == 16 { random.pick(b"NSEW") } else { random.pick(b"0123456789") }).collect()
        }
    }
    text
}

fn pair(random: &mut Random) -> (i32, i32) {
    let one = |random: &mut Random, axis: Axis| match random.below(10) {
        0 => random.number() as i32,
        1 => random.pick(&edges(axis)),
        _ => make::angle(random, axis) as i32,
    };
    (one(random, Axis::Latitude), one(random, Axis::Longitude))
}

fn judge_text(text: &[u8], case: usize, tally: &mut Tally) {
    let (mut latitude, mut longitude) = (i32::MIN, i32::MIN + 1);
    // A block of its own, so that a tool that watches memory sees a byte read behind its end.
    let lent = text.to_vec();
    let (answer, memory) = watch(NEVER, || linked::read_position(&lent, &mut latitude, &mut longitude));
    let (mut wanted_latitude, mut wanted_longitude) = (i32::MIN, i32::MIN + 1);
    let wanted = position::read_position(text, &mut wanted_latitude, &mut wanted_longitude);
    tally.count(if wanted == DONE { "read" } else { "not read" });
    let same = (answer, latitude, longitude, memory) == (wanted, wanted_latitude, wanted_longitude, NO_MEMORY);
    tally.compare(same, case, || {
        format!(
            "    text {}: {}\n    library:   {answer}, {latitude}, {longitude}, {memory:?}\n    reference: {wanted}, {wanted_latitude}, {wanted_longitude}",
            text.escape_ascii(),
            hex(text)
        )
    });
    if answer == DONE {
        judge_pair(latitude, longitude, 17, case, tally);
    }
}

fn judge_pair(latitude: i32, longitude: i32, long: usize, case: usize, tally: &mut Tally) {
    let mut place = vec![b'_'; long + 2 * MARGIN];
    let mut written = NONE;
    let lent = &mut place[MARGIN..MARGIN + long];
    let (answer, memory) = watch(NEVER, || linked::write_position(latitude, longitude, lent, &mut written));
    let mut wanted_place = vec![b'_'; long + 2 * MARGIN];
    let mut wanted_written = NONE;
    let wanted = position::write_position(latitude, longitude, &mut wanted_place[MARGIN..MARGIN + long], &mut wanted_written);
    tally.count(if wanted == DONE { "written" } else { "not written" });
    let same = (answer, written, memory) == (wanted, wanted_written, NO_MEMORY) && place == wanted_place;
    tally.compare(same, case, || {
        format!(
            "    pair {latitude}, {longitude}, place of {long} bytes ({MARGIN} stand before it)\n    library:   {answer}, {written} written, {memory:?}, {}\n    reference: {wanted}, {wanted_written} written, {}",
            place.escape_ascii(),
            wanted_place.escape_ascii()
        )
    });
}

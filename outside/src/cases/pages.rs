//! Pages, good, damaged and random: the number, the byte place, the line and the cell.

use super::make;
use super::tally::{hex, Tally};
use crate::interface::Checked;
use crate::linked;
use crate::memory::{watch, NEVER, NO_MEMORY};
use crate::random::Random;
use crate::reference::page::{check_page, written_parts, Part};

const KIND: u64 = 1;
const PARTS: [Part; 6] = [Part::Lines, Part::Cells, Part::Alternatives, Part::Symbol, Part::High, Part::Low];

pub fn compare(draw: u64, cases: std::ops::Range<usize>, tally: &mut Tally) {
    for page in [&[][..], &[0], &[1], &[40], &[41], &[255]] {
        judge(page, 0, tally);
    }
    for case in cases {
        let mut random = Random::of_case(draw, KIND, case as u64);
        one_case(&mut random, case, tally);
    }
}

/// A good page and what becomes of it, and random bytes.
fn one_case(random: &mut Random, case: usize, tally: &mut Tally) {
    let (lines, cells, alternatives) = random.pick(&[(2, 2, 2), (2, 3, 3), (3, 3, 8), (4, 8, 4), (10, 12, 8), (40, 24, 8)]);
    let lines = if lines == 40 && random.chance(30) { 40 } else { random.between(1, lines) };
    let page = make::any_lines(random, lines, cells, alternatives);
    let parts = written_parts(&page);
    let bytes: Vec<u8> = parts.iter().map(|(byte, _)| *byte).collect();
    judge(&bytes, case, tally);
    changed(random, &parts, &bytes, case, tally);
    cut(random, &bytes, case, tally);
    longer(random, &bytes, case, tally);
    flipped(random, &bytes, case, tally);
    random_bytes(random, case, tally);
}

/// One byte of each kind is changed: on short pages every byte, on long ones some of each kind.
fn changed(random: &mut Random, parts: &[(u8, Part)], bytes: &[u8], case: usize, tally: &mut Tally) {
    for part in PARTS {
        let mut places: Vec<usize> = (0..parts.len()).filter(|at| parts[*at].1 == part).collect();
        if parts.len() > 60 {
            random.shuffle(&mut places);
            places.truncate(5);
        }
        for at in places {
            for byte in instead(random, bytes, part, at) {
                let mut damaged = bytes.to_vec();
                damaged[at] = byte;
                judge(&damaged, case, tally);
            }
        }
    }
}

/// What may stand instead of a byte.
fn instead(random: &mut Random, bytes: &[u8], part: Part, at: usize) -> Vec<u8> {
    let byte = bytes[at];
    let bound = match part {
        Part::Lines => 40,
        Part::Cells => 24,
        Part::Alternatives => 8,
        Part::Symbol => {
            return vec![
                0,
                32,
                33,
                126,
                127,
                255,
                byte.wrapping_add(1),
                bytes[at.saturating_sub(3)],
                bytes[(at + 3).min(bytes.len() - 1)],
            ]
        }
        Part::High | Part::Low => return vec![0, 255, byte.wrapping_sub(1), byte.wrapping_add(1), random.byte()],
    };
    vec![0, bound, bound + 1, 255, byte.wrapping_sub(1), byte + 1]
}

fn cut(random: &mut Random, bytes: &[u8], case: usize, tally: &mut Tally) {
    if bytes.len() <= 80 {
        for end in 0..bytes.len() {
            judge(&bytes[..end], case, tally);
        }
        return;
    }
    for _ in 0..20 {
        judge(&bytes[..random.below(bytes.len())], case, tally);
    }
}

fn longer(random: &mut Random, bytes: &[u8], case: usize, tally: &mut Tally) {
    for more in 1..5 {
        let mut long = bytes.to_vec();
        long.extend((0..more).map(|_| random.byte()));
        judge(&long, case, tally);
    }
    let twice = [bytes, bytes].concat();
    judge(&twice, case, tally);
}

fn flipped(random: &mut Random, bytes: &[u8], case: usize, tally: &mut Tally) {
    for _ in 0..20 {
        let mut damaged = bytes.to_vec();
        for _ in 0..random.between(1, 4) {
            let at = random.below(damaged.len());
            damaged[at] = random.byte();
        }
        judge(&damaged, case, tally);
        let mut close = bytes.to_vec();
        let at = random.below(close.len());
        close[at] ^= 1 << random.below(8);
        judge(&close, case, tally);
    }
}

/// Bytes from a few that often stand in pages, so that some are read far.
fn random_bytes(random: &mut Random, case: usize, tally: &mut Tally) {
    for _ in 0..20 {
        let long = random.below(40);
        let bytes: Vec<u8> = (0..long)
            .map(|_| if random.chance(85) { random.pick(&[0, 1, 1, 1, 2, 3, 33, 65, 66, 126]) } else { random.byte() })
            .collect();
        judge(&bytes, case, tally);
    }
}

fn judge(page: &[u8], case: usize, tally: &mut Tally) {
    let unwritten = Checked { lines: 77, place: 77, line: 77, cell: 77 };
    let mut checked = unwritten;
    // A block of its own, so that a tool that watches memory sees a byte read behind its end.
    let lent = page.to_vec();
    let (answer, memory) = watch(NEVER, || linked::check_page(&lent, &mut checked));
    let wanted = check_page(page);
    tally.count(OUTCOMES[usize::from(wanted.0)]);
    tally.compare((answer, checked) == wanted && memory == NO_MEMORY, case, || {
        format!(
            "    page: {}\n    library:   {answer} {checked:?}, {memory:?}\n    reference: {} {:?}",
            hex(page),
            wanted.0,
            wanted.1
        )
    });
}

const OUTCOMES: [&str; 7] = ["good", "short", "count", "symbol", "twice", "order", "excess"];

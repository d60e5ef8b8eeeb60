//! Random lines and pages, near to dates and positions or not.

use crate::random::Random;
use crate::reference::chains::MOST_CHAINS;
use crate::reference::grammar::all_days;
use crate::reference::page::{Alternative, Cell, Line, GREATEST_SYMBOL, LEAST_SYMBOL};
use crate::reference::position::Axis;
use std::sync::OnceLock;

/// How the penalties of a cell grow.
#[derive(Clone, Copy, Debug, PartialEq, Eq)]
pub enum Growth {
    /// All are the same: the standing order is by ranks alone.
    Level,
    /// By 0 or 1.
    Ties,
    /// By 0 to 9.
    Small,
    /// By up to 3,000.
    Wide,
    /// Close to the greatest penalty.
    High,
}

const GROWTHS: [Growth; 7] =
    [Growth::Level, Growth::Ties, Growth::Ties, Growth::Small, Growth::Small, Growth::Wide, Growth::High];

pub fn growth(random: &mut Random) -> Growth {
    random.pick(&GROWTHS)
}

/// Penalties that do not fall, none above `highest`.
pub fn penalties(random: &mut Random, count: usize, growth: Growth, highest: u16) -> Vec<u16> {
    let mut penalty: usize = match growth {
        Growth::Level => random.pick(&[0, 0, 7]),
        Growth::Ties => random.below(2),
        Growth::Small => random.pick(&[0, 0, 0, 3, 12]),
        Growth::Wide => random.pick(&[0, 0, 100, 40_000]),
        Growth::High => 65_535 - random.below(4),
    };
    let mut all = Vec::new();
    for _ in 0..count {
        all.push(penalty.min(usize::from(highest)) as u16);
        penalty += match growth {
            Growth::Level => 0,
            Growth::Ties => random.below(2),
            Growth::Small => random.below(10),
            Growth::Wide => random.below(3_001),
            Growth::High => random.below(2),
        };
    }
    all
}

/// A cell with these symbols, in this order.
pub fn cell(random: &mut Random, symbols: &[u8], growth: Growth, highest: u16) -> Cell {
    let penalties = penalties(random, symbols.len(), growth, highest);
    let pairs = symbols.iter().zip(penalties);
    Cell { alternatives: pairs.map(|(symbol, penalty)| Alternative { symbol: *symbol, penalty }).collect() }
}

/// Any good lines.
pub fn any_lines(random: &mut Random, lines: usize, most_cells: usize, most_alternatives: usize) -> Vec<Line> {
    let line = |random: &mut Random| {
        let growth = growth(random);
        let cells = random.between(1, most_cells);
        let cells = (0..cells).map(|_| {
            let mut symbols: Vec<u8> = (LEAST_SYMBOL..=GREATEST_SYMBOL).collect();
            random.shuffle(&mut symbols);
            let alternatives = random.between(1, most_alternatives);
            cell(random, &symbols[..alternatives], growth, u16::MAX)
        });
        Line { cells: cells.collect() }
    };
    (0..lines).map(|_| line(random)).collect()
}

/// What a line is to look like.
#[derive(Clone, Copy, Debug)]
pub struct Shape {
    /// The line has at most about so many chains.
    pub most_chains: usize,
    pub most_alternatives: usize,
    pub growth: Growth,
    pub highest: u16,
    /// In how many of a hundred cells the symbol of the text is the best one.
    pub best: usize,
    /// In how many of a hundred cells the symbol of the text stands at all.
    pub kept: usize,
}

/// A shape with few enough chains to list them all.
pub fn shape(random: &mut Random) -> Shape {
    Shape {
        most_chains: random.pick(&[4, 40, 400, 400, 2_000, 2_000, MOST_CHAINS]),
        most_alternatives: random.pick(&[2, 3, 8, 8]),
        growth: growth(random),
        highest: u16::MAX,
        best: random.pick(&[20, 50, 90]),
        kept: random.pick(&[80, 95, 100, 100]),
    }
}

/// A line whose cells have the symbols of a text and others beside them.
pub fn line_near(random: &mut Random, text: &[u8], shape: Shape) -> Line {
    let mut counts = vec![1; text.len()];
    let mut order: Vec<usize> = (0..text.len()).collect();
    random.shuffle(&mut order);
    let mut chains = 1;
    for at in order {
        let count = random.between(1, shape.most_alternatives);
        if chains * count <= shape.most_chains {
            chains *= count;
            counts[at] = count;
        }
    }
    let cell = |(symbol, count): (&u8, usize)| {
        let symbols = symbols_near(random, *symbol, count, shape);
        cell(random, &symbols, shape.growth, shape.highest)
    };
    Line { cells: text.iter().zip(counts).map(cell).collect() }
}

/// So many symbols, most often with the given one among them.
fn symbols_near(random: &mut Random, symbol: u8, count: usize, shape: Shape) -> Vec<u8> {
    let mut symbols = Vec::new();
    if random.chance(shape.kept) {
        symbols.push(symbol);
    }
    while symbols.len() < count {
        let other = other_symbol(random, symbol);
        if !symbols.contains(&other) {
            symbols.push(other);
        }
    }
    if !random.chance(shape.best) {
        random.shuffle(&mut symbols);
    }
    symbols
}

/// A symbol that may stand beside another: digits beside digits, letters beside letters, at times anything.
fn other_symbol(random: &mut Random, symbol: u8) -> u8 {
    if random.chance(4) {
        return random.between(usize::from(LEAST_SYMBOL), usize::from(GREATEST_SYMBOL)) as u8;
    }
    if symbol.is_ascii_digit() || random.chance(5) {
        random.pick(b"0123456789012345012OIlSB/")
    } else {
        random.pick(b"NSEWNSEWMZVH")
    }
}

/// The text of some day, or of one that is near to be one.
pub fn day(random: &mut Random) -> Vec<u8> {
    static DAYS: OnceLock<Vec<(u32, u32, u32)>> = OnceLock::new();
    let days = DAYS.get_or_init(all_days);
    let (day, month, year) = days[random.below(days.len())];
    // Some of these are no days.
    let late = [
        (29, 2, 1900),
        (31, 4, 1999),
        (30, 2, 2000),
        (29, 2, 2100),
        (1, 1, 2100),
        (31, 12, 1899),
        (29, 2, 2000),
        (29, 2, 1904),
        (31, 12, 2099),
        (1, 1, 1900),
        (28, 2, 1900),
        (30, 4, 1999),
    ];
    let (day, month, year) = if random.chance(15) { random.pick(&late) } else { (day, month, year) };
    format!("{day:02}{month:02}{year:04}").into_bytes()
}

/// An angle in range, at times at an edge.
pub fn angle(random: &mut Random, axis: Axis) -> i64 {
    let (least, greatest) = (*axis.range().start(), *axis.range().end());
    let whole = random.between_signed(least / 60_000, greatest / 60_000) * 60_000;
    let edges = [0, 1, -1, least, least + 1, greatest, greatest - 1, 59_999, -59_999, 60_000, -60_000, whole];
    if random.chance(25) {
        random.pick(&edges)
    } else {
        random.between_signed(least, greatest)
    }
}

/// The text of some position.
pub fn position(random: &mut Random) -> Vec<u8> {
    let text = Axis::Latitude.text(angle(random, Axis::Latitude)) + &Axis::Longitude.text(angle(random, Axis::Longitude));
    text.into_bytes()
}

/// A text cut off or made longer.
pub fn other_length(random: &mut Random, text: &[u8], most: usize) -> Vec<u8> {
    let long = random.between(1, most);
    (0..long).map(|at| text.get(at).copied().unwrap_or_else(|| random.pick(b"0123456789N"))).collect()
}

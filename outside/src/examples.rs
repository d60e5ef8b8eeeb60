//! The examples of the rules, as checks of the reference.

use crate::interface::*;
use crate::random::Random;
use crate::reference::chains::{self, Ranking};
use crate::reference::dates;
use crate::reference::grammar::{all_days, Grammar, Sheet};
use crate::reference::page::{check_page, read_page, write_page, Alternative, Cell, Line};
use crate::reference::position::{self, Axis};
use crate::reference::reader;
use crate::reference::score::Score;

pub type Check = (&'static str, fn() -> bool);

pub const EXAMPLES: &[Check] = &[
    ("pages: the good page", good_page),
    ("pages: the broken page", broken_page),
    ("pages: short pages", short_pages),
    ("pages: counts out of range", counts),
    ("pages: symbols, order and excess", alternatives),
    ("pages: smallest and largest", sizes),
    ("scores: sums", sums),
    ("scores: shares", shares),
    ("scores: what is taken", taken),
    ("dates: all days", days),
    ("dates: admitted texts", dates_admitted),
    ("dates: openings", date_openings),
    ("positions: texts and pairs", positions_read),
    ("positions: no texts", positions_refused),
    ("positions: openings", position_openings),
    ("positions: writing", positions_written),
    ("positions: there and back", positions_back),
    ("sheets: limits and texts", sheets),
    ("grammars: the three laws", laws),
    ("reader: the worked ranking", worked_ranking),
    ("reader: the worked run", worked_run),
    ("reader: the worked run, a grant of two", worked_short_run),
    ("reader: refusals before a load", refusals_before_load),
    ("reader: greatest grants", greatest_grants),
    ("reader: unknown numbers and tables", unknown_numbers),
    ("reader: a beginning of a ranking is one", beginnings),
    ("list: the worked list", worked_list),
    ("list: of a bad page", bad_list),
    ("list: places", list_places),
];

/// A line with these symbols and penalties in each cell.
fn line_of(cells: &[&[(u8, u16)]]) -> Line {
    let alternative = |(symbol, penalty): &(u8, u16)| Alternative { symbol: *symbol, penalty: *penalty };
    let cell = |row: &&[(u8, u16)]| Cell { alternatives: row.iter().map(alternative).collect() };
    Line { cells: cells.iter().map(cell).collect() }
}

pub fn worked_line() -> Line {
    line_of(&[
        &[(b'3', 0), (b'2', 5)],
        &[(b'0', 0), (b'8', 2)],
        &[(b'0', 0)],
        &[(b'2', 0)],
        &[(b'2', 0)],
        &[(b'0', 0)],
        &[(b'2', 0)],
        &[(b'3', 0), (b'4', 1)],
    ])
}

const WORKED_PAGE: [u8; 43] = [
    0x01, 0x08, 0x02, 0x33, 0x00, 0x00, 0x32, 0x00, 0x05, 0x02, 0x30, 0x00, 0x00, 0x38, 0x00, 0x02, 0x01, 0x30, 0x00, 0x00, 0x01,
    0x32, 0x00, 0x00, 0x01, 0x32, 0x00, 0x00, 0x01, 0x30, 0x00, 0x00, 0x01, 0x32, 0x00, 0x00, 0x02, 0x33, 0x00, 0x00, 0x34, 0x00,
    0x01,
];

fn is_refused(page: &[u8], number: u8, place: usize, line: usize, cell: usize) -> bool {
    check_page(page) == (number, Checked { lines: 0, place, line, cell })
}

fn good_page() -> bool {
    read_page(&WORKED_PAGE) == Ok(vec![worked_line()])
        && write_page(&[worked_line()]) == WORKED_PAGE
        && check_page(&WORKED_PAGE) == (DONE, Checked { lines: 1, place: NONE, line: NONE, cell: NONE })
}

fn broken_page() -> bool {
    let page = [3, 1, 1, 0x41, 0, 0, 1, 1, 0x42, 0, 0, 1, 1, 0x20];
    is_refused(&page, SYMBOL, 13, 2, 0)
}

fn short_pages() -> bool {
    is_refused(&[], SHORT, 0, NONE, NONE)
        && is_refused(&[1], SHORT, 1, 0, NONE)
        && is_refused(&[1, 2], SHORT, 2, 0, 0)
        && is_refused(&[1, 2, 1, 0x41, 0, 0], SHORT, 6, 0, 1)
        && is_refused(&[2, 1, 1, 0x41, 0, 0], SHORT, 6, 1, NONE)
        && is_refused(&[1, 1, 2, 0x21, 1, 0, 0x22, 0], SHORT, 8, 0, 0)
}

fn counts() -> bool {
    is_refused(&[0], COUNT, 0, NONE, NONE)
        && is_refused(&[41, 0], COUNT, 0, NONE, NONE)
        && is_refused(&[1, 0], COUNT, 1, 0, NONE)
        && is_refused(&[1, 25], COUNT, 1, 0, NONE)
        && is_refused(&[1, 1, 0], COUNT, 2, 0, 0)
        && is_refused(&[1, 1, 9], COUNT, 2, 0, 0)
}

fn alternatives() -> bool {
    is_refused(&[1, 1, 1, 127, 0, 0], SYMBOL, 3, 0, 0)
        && is_refused(&[1, 1, 2, 0x41, 0, 5, 0x41], TWICE, 6, 0, 0)
        && is_refused(&[1, 1, 2, 0x41, 0, 5, 0x42, 0, 4], ORDER, 7, 0, 0)
        && is_refused(&[1, 1, 2, 0x41, 0, 5, 0x42, 0], SHORT, 8, 0, 0)
        && check_page(&[1, 1, 2, 0x41, 0, 5, 0x42, 0, 5]).0 == DONE
        && is_refused(&[1, 1, 1, 0x41, 0, 5, 1, 1], EXCESS, 6, NONE, NONE)
}

fn sizes() -> bool {
    let cell = Cell { alternatives: (0..8).map(|n| Alternative { symbol: 33 + n, penalty: 65_528 + u16::from(n) }).collect() };
    let largest = vec![Line { cells: vec![cell; 24] }; 40];
    let bytes = write_page(&largest);
    bytes.len() == 24_041 && read_page(&bytes) == Ok(largest) && check_page(&[1, 1, 1, 126, 255, 255]).0 == DONE
}

fn sums() -> bool {
    Score::Sum.total([0, 3, 65_535]) == 65_538
        && Score::Sum.step(4_294_967_295, 1) == 4_294_967_295
        && Score::Sum.total([65_535; 24]) == 1_572_840
        && Score::Sum.order(2, 3).is_lt()
        && Score::Sum.order(2, 2).is_eq()
}

fn shares() -> bool {
    Score::Shares.total([10, 20, 99]) == 7_200
        && Score::Shares.step(77, 150) == 77
        && Score::Shares.total([0; 9]) == 1_000_000_000_000_000_000
        && Score::Shares.step(1_000_000_000_000_000_000, 0) == 1_000_000_000_000_000_000
        && Score::Shares.order(3, 2).is_lt()
}

fn taken() -> bool {
    let line =
        |cells: usize, penalty| Line { cells: vec![Cell { alternatives: vec![Alternative { symbol: b'1', penalty }] }; cells] };
    Score::Sum.takes(&line(24, 65_535))
        && Score::Shares.takes(&line(9, 99))
        && !Score::Shares.takes(&line(10, 99))
        && !Score::Shares.takes(&line(9, 100))
}

fn days() -> bool {
    let days = all_days();
    let texts: std::collections::HashSet<_> = days.iter().collect();
    days.len() == 73_049 && texts.len() == 73_049 && days[0] == (1, 1, 1900) && days[73_048] == (31, 12, 2099)
}

fn admits(grammar: Grammar, text: &str) -> bool {
    grammar.admits(text.as_bytes())
}

fn allows(grammar: Grammar, opening: &str) -> bool {
    grammar.allows(opening.as_bytes())
}

fn dates_admitted() -> bool {
    let good = ["01011900", "29021904", "29022000", "29022096", "31122099"];
    let bad = [
        "29021900",
        "29022099",
        "30022000",
        "31041999",
        "00011999",
        "01131999",
        "31121899",
        "01012100",
        "",
        "0101190",
        "010119000",
        "0101190O",
    ];
    good.iter().all(|text| admits(Grammar::Dates, text)) && !bad.iter().any(|text| admits(Grammar::Dates, text))
}

fn date_openings() -> bool {
    let good = ["", "9", "31", "2902", "2902190", "319", "31129", "29022000"];
    let bad = ["32", "00", "3002", "0113", "0100", "3104", "29021900", "01011899", "O", "290220000"];
    good.iter().all(|text| allows(Grammar::Dates, text)) && !bad.iter().any(|text| allows(Grammar::Dates, text))
}

fn positions_read() -> bool {
    Axis::Latitude.angle(b"5012345N") == Some(3_012_345)
        && Axis::Longitude.angle(b"00412345W") == Some(-252_345)
        && position::pair(b"5012345N00412345W") == Some((3_012_345, -252_345))
        && Axis::Latitude.angle(b"9000000N") == Some(5_400_000)
        && Axis::Latitude.angle(b"9000000S") == Some(-5_400_000)
        && Axis::Longitude.angle(b"18000000E") == Some(10_800_000)
        && Axis::Longitude.angle(b"17959999W") == Some(-10_799_999)
        && Axis::Latitude.angle(b"0000001S") == Some(-1)
        && Axis::Latitude.angle(b"0059999N") == Some(59_999)
}

fn positions_refused() -> bool {
    let latitudes = ["9000001N", "5060000N", "0000000S", "5012345E", "501234N", "50123456N", "+012345N", "5012345n", " 012345N"];
    let longitudes = ["00000000W", "18000000W", "18000001E", "00412345N", "0412345W", "004123456W"];
    !latitudes.iter().any(|text| Axis::Latitude.angle(text.as_bytes()).is_some())
        && !longitudes.iter().any(|text| Axis::Longitude.angle(text.as_bytes()).is_some())
}

fn position_openings() -> bool {
    let behind = |opening: &str| allows(Grammar::Positions, &format!("5012345N{opening}"));
    ["", "9", "90", "905", "9059999", "5012345N"].iter().all(|opening| allows(Grammar::Positions, opening))
        && !["91", "906", "501234N", "0000000S", "5012345E"].iter().any(|opening| allows(Grammar::Positions, opening))
        && ["9", "99", "180", "1805", "18059999", "00412345W"].iter().all(|opening| behind(opening))
        && !["181", "1806", "18000000W", "00412345W0"].iter().any(|opening| behind(opening))
        && !allows(Grammar::Positions, "9059999N0")
}

fn positions_written() -> bool {
    let mut place = *b"____________________";
    let mut written = 99;
    let outside = position::write_position(0, -10_800_000, &mut [], &mut written) == POSITION;
    let short = position::write_position(0, 0, &mut place[..16], &mut written) == PLACE && written == 99;
    let whole = position::write_position(0, 0, &mut place, &mut written) == DONE && written == 17;
    outside && short && whole && &place == b"0000000N00000000E___"
}

fn positions_back() -> bool {
    [Axis::Latitude, Axis::Longitude].iter().all(|axis| {
        let range = axis.range();
        let near_ends = (*range.start()..).take(70_000).chain(-70_000..70_000).chain(range.end() - 70_000..=*range.end());
        near_ends.chain(range.clone().step_by(997)).all(|angle| axis.angle(axis.text(angle).as_bytes()) == Some(angle))
    })
}

const CHART: Sheet = Sheet { south: 2_940_000, north: 3_060_000, west: -360_000, east: -120_000 };

fn sheets() -> bool {
    let on = |text| admits(Grammar::OnSheet(CHART), text);
    CHART.holds()
        && on("5012345N00412345W")
        && on("4900000N00600000W")
        && on("5100000N00200000W")
        && !on("5100001N00412345W")
        && !Sheet { south: 6, north: 5, ..CHART }.holds()
        && !Sheet { east: 10_800_001, ..CHART }.holds()
        && Sheet { east: 10_800_000, ..CHART }.holds()
}

/// Admitted texts have allowed beginnings, and allowed openings too.
fn laws() -> bool {
    let mut random = Random::new(7);
    let grammars = [Grammar::Dates, Grammar::Positions, Grammar::OnSheet(CHART)];
    grammars.iter().all(|grammar| {
        grammar.allows(b"")
            && (0..20_000).all(|_| {
                let long = random.between(0, 19);
                let mut text: Vec<u8> = (0..long).map(|_| random.pick(b"00112349")).collect();
                for (at, letter) in [(7, random.pick(b"NSE")), (16, random.pick(b"EWN"))] {
                    if at < long {
                        text[at] = letter;
                    }
                }
                let from = if grammar.admits(&text) { 0 } else { long };
                let allowed: Vec<bool> = (0..=long).map(|end| grammar.allows(&text[..end])).collect();
                allowed.windows(2).all(|pair| pair[0] || !pair[1]) && (from == long || allowed[long])
            })
    })
}

fn worked_ranking() -> bool {
    let ranking = Ranking::whole(&worked_line(), Grammar::Dates, Score::Sum);
    let told: Vec<(&[u8], u64)> = ranking.chains.iter().map(|chain| (&chain.text[..], chain.total)).collect();
    let wanted: [(&[u8], u64); 6] =
        [(b"30022023", 0), (b"38022023", 2), (b"20022023", 5), (b"20022024", 6), (b"28022023", 7), (b"28022024", 8)];
    chains::count(&worked_line()) == 8 && told == wanted
}

fn asked(call: u32, start: usize, length: usize, number: usize) -> Row {
    Row { asked: Asked { call, start, length, number }, came: Came::plain(NOT_MADE) }
}

const FOR_DATES: Seeking = Seeking { grammar: DATES, score: SUM, south: 0, north: 0, west: 0, east: 0 };

/// The answer, the places afterwards, and what came of the rows.
fn played(seeking: &Seeking, pages: &[u8], places: usize, rows: &[Row]) -> (u8, Vec<u8>, Vec<Came>) {
    let mut places = vec![b'_'; places];
    let mut rows = rows.to_vec();
    let ran = reader::run(seeking, pages, &mut places, &mut rows).expect("the lines are short");
    (ran.answer, places, rows.iter().map(|row| row.came).collect())
}

fn found() -> Came {
    Came { written: 8, ..Came::plain(FOUND) }
}

fn reported(granted: usize, looked: usize, handed: usize) -> Came {
    Came { cells: 8, granted, looked, handed, ..Came::plain(REPORTED) }
}

fn refused(number: u8) -> Came {
    Came { refused: number.into(), ..Came::plain(REFUSED) }
}

fn worked_run() -> bool {
    let mut rows = vec![asked(LOAD, 0, NONE, 0), asked(GRANT_MORE, 0, 0, 6)];
    for number in 0..5 {
        rows.push(asked(NEXT, 8 * number, 8, 0));
        rows.push(asked(REPORT, 0, 0, 0));
    }
    let (answer, places, came) = played(&FOR_DATES, &WORKED_PAGE, 40, &rows);
    answer == DONE
        && places == b"20022023200220242802202328022024________"
        && came[..2] == [Came::plain(LOADED), Came::plain(GRANTED)]
        && came[2..8] == [found(), reported(6, 3, 1), found(), reported(6, 4, 2), found(), reported(6, 5, 3)]
        && came[8..] == [found(), reported(6, 6, 4), Came::plain(EXHAUSTED), reported(6, 6, 4)]
}

fn worked_short_run() -> bool {
    let rows = [
        asked(LOAD, 0, 43, 0),
        asked(GRANT_MORE, 0, 0, 2),
        asked(NEXT, 0, 8, 0),
        asked(REPORT, 0, 0, 0),
        asked(NEXT, 0, 7, 0),
        asked(LOAD, 0, 42, 0),
    ];
    let (answer, places, came) = played(&FOR_DATES, &WORKED_PAGE, 8, &rows);
    let short_page = Came { refused: SHORT.into(), place: 42, line: 0, cell: 7, ..Came::plain(REFUSED) };
    answer == DONE && places == b"________" && came[2..] == [Came::plain(SPENT), reported(2, 2, 0), refused(PLACE), short_page]
}

fn refusals_before_load() -> bool {
    let rows =
        [asked(GRANT_MORE, 0, 0, 0), asked(NEXT, 0, 0, 0), asked(REPORT, 0, 0, 0), asked(LOAD, 0, 43, 1), asked(LOAD, 44, 1, 0)];
    let (_, _, came) = played(&FOR_DATES, &WORKED_PAGE, 8, &rows);
    let empty_page = Came { refused: SHORT.into(), place: 0, ..Came::plain(REFUSED) };
    came == [refused(NO_LINE), refused(NO_LINE), Came::plain(REPORTED), refused(LINE_NUMBER), empty_page]
}

fn greatest_grants() -> bool {
    let of_cells = |cells: usize, grant: usize| {
        let line = Line { cells: vec![Cell { alternatives: vec![Alternative { symbol: b'1', penalty: 0 }] }; cells] };
        let rows = [asked(LOAD, 0, NONE, 0), asked(GRANT_MORE, 0, 0, grant)];
        played(&FOR_DATES, &write_page(&[line]), 0, &rows).2[1]
    };
    let taken = Came::plain(GRANTED);
    of_cells(8, 511) == taken
        && of_cells(8, 512) == refused(GRANT)
        && of_cells(24, 170) == taken
        && of_cells(24, 171) == refused(GRANT)
        && of_cells(1, 4_095) == taken
        && of_cells(1, 0) == refused(GRANT)
        && of_cells(1, usize::MAX) == refused(GRANT)
}

fn unknown_numbers() -> bool {
    let answer = |seeking: Seeking, call| played(&seeking, &WORKED_PAGE, 0, &[asked(call, 0, 0, 0)]).0;
    let no_sheet = Seeking { grammar: ON_SHEET, south: 6, north: 5, ..FOR_DATES };
    answer(FOR_DATES, REPORT) == DONE
        && answer(FOR_DATES, 0) == UNKNOWN
        && answer(FOR_DATES, 5) == UNKNOWN
        && answer(Seeking { grammar: 4, ..FOR_DATES }, REPORT) == UNKNOWN
        && answer(Seeking { score: 0, ..FOR_DATES }, REPORT) == UNKNOWN
        && answer(no_sheet, REPORT) == TABLE
        && answer(no_sheet, 5) == UNKNOWN
}

/// The two ways to a ranking agree.
fn beginnings() -> bool {
    let mut random = Random::new(11);
    (0..200).all(|number| {
        let (grammar, score, cells) = match number % 3 {
            0 => (Grammar::Dates, Score::Sum, random.between(1, 10)),
            1 => (Grammar::Dates, Score::Shares, random.between(1, 9)),
            _ => (Grammar::Positions, Score::Sum, random.between(1, 12)),
        };
        let cell = |random: &mut Random| {
            let mut symbols = *b"0123456789NS";
            random.shuffle(&mut symbols);
            let mut penalties = [0u16; 12].map(|_| random.below(12) as u16);
            penalties.sort();
            let alternatives = random.between(1, 3);
            let pairs = symbols.iter().zip(&penalties).take(alternatives);
            Cell { alternatives: pairs.map(|(symbol, penalty)| Alternative { symbol: *symbol, penalty: *penalty }).collect() }
        };
        let line = Line { cells: (0..cells).map(|_| cell(&mut random)).collect() };
        if chains::count(&line) > chains::MOST_CHAINS {
            return true;
        }
        let whole = Ranking::whole(&line, grammar, score);
        let wanted = random.between(1, 60);
        let begun = Ranking::beginning(&line, grammar, score, wanted).expect("there are few chains");
        let enough = begun.chains.len() >= wanted || begun.whole;
        enough && whole.chains.starts_with(&begun.chains) && (!begun.whole || whole.chains == begun.chains)
    })
}

fn worked_list() -> bool {
    dates::list(&WORKED_PAGE).as_deref() == Ok(b"line reading total looked outcome\n0 20022023 5 3 found\n")
}

fn bad_list() -> bool {
    let page = [3, 1, 1, 0x41, 0, 0, 1, 1, 0x42, 0, 0, 1, 1, 0x20];
    dates::list(&page).as_deref() == Ok(b"refused 3 at 13\n") && dates::list(&[]).as_deref() == Ok(b"refused 1 at 0\n")
}

fn list_places() -> bool {
    let mut place = vec![b'_'; 2_048];
    let mut written = 99;
    let short = dates::list_dates(&WORKED_PAGE, &mut place[..2_047], &mut written) == Ok(PLACE);
    let left = written == 99 && place.iter().all(|byte| *byte == b'_');
    let taken = dates::list_dates(&WORKED_PAGE, &mut place, &mut written) == Ok(DONE);
    short && left && taken && written == 55 && place[55..].iter().all(|byte| *byte == b'_')
}

#[cfg(test)]
mod tests {
    use super::EXAMPLES;

    fn all_of(group: &str) {
        let checks: Vec<_> = EXAMPLES.iter().filter(|(name, _)| name.starts_with(group)).collect();
        assert!(!checks.is_empty());
        for (name, check) in checks {
            assert!(check(), "{name}");
        }
    }

    #[test]
    fn pages() {
        all_of("pages:");
    }

    #[test]
    fn scores() {
        all_of("scores:");
    }

    #[test]
    fn dates() {
        all_of("dates:");
    }

    #[test]
    fn positions() {
        all_of("positions:");
    }

    #[test]
    fn sheets() {
        all_of("sheets:");
    }

    #[test]
    fn grammars() {
        all_of("grammars:");
    }

    #[test]
    fn reader() {
        all_of("reader:");
    }

    #[test]
    fn list() {
        all_of("list:");
    }
}

//! Times the search of the C library, the plain search and, where it is given, OpenFst, on the same lines.
//!
//!     bench [--draw N] [--lines N] [--rounds N] [--openfst PROGRAM] [--file FILE]
//!
//! Every reading and every number of looks of the library is first compared with those of the plain search. OpenFst's program
//! is given a file of the lines.

#[cfg(not(linked))]
fn main() -> std::process::ExitCode {
    eprintln!("bench: this program was built without the library");
    std::process::ExitCode::from(2)
}

#[cfg(linked)]
fn main() -> std::process::ExitCode {
    linked::main()
}

#[cfg(linked)]
mod linked {
    use outside::cases::make::{self, Growth, Shape};
    use outside::interface::*;
    use outside::linked;
    use outside::plain::{Dates, Line, Next, Positions, Search, MOST_CELLS};
    use outside::random::Random;
    use outside::reference::page::{self, write_page};
    use std::fmt::Write;
    use std::hint::black_box;
    use std::process::{Command, ExitCode};

    struct Options {
        draw: u64,
        lines: usize,
        rounds: usize,
        openfst: Option<String>,
        file: String,
    }

    pub fn main() -> ExitCode {
        let options = match options() {
            Ok(options) => options,
            Err(why) => {
                eprintln!("bench: {why}");
                return ExitCode::from(2);
            }
        };
        println!(
            "draw {}, {} lines of each kind, medians of {} rounds, times of the processor in microseconds",
            options.draw, options.lines, options.rounds
        );
        println!("a run without rows, so the making of a reader: {:.2}", empty_run(options.rounds));
        let mut random = Random::new(options.draw);
        let easy = Lot::dates("easy", &mut random, options.lines, 3);
        let hard = Lot::dates("hard", &mut random, options.lines, 8);

        println!(
            "\nAll readings of date lines of 8 cells, easy ones of 1 to 3 alternatives a cell, hard ones of 1 to 8. {HEADER}"
        );
        for lot in [&easy, &hard] {
            for grant in [170, 511] {
                Work::of(lot, grant, usize::MAX).tell(options.rounds);
            }
        }
        println!("\nLoads alone, of the same lines (a page of one line each):");
        for lot in [&easy, &hard] {
            Work::of(lot, 0, 0).tell(options.rounds);
        }
        println!("\nThe first reading of the same lines, at a grant of 511:");
        for lot in [&easy, &hard] {
            let first = Work::of(lot, 511, 1);
            let ours = first.tell(options.rounds);
            if let Some(program) = &options.openfst {
                if let Err(why) = openfst(program, &options, lot, &first, ours) {
                    eprintln!("bench: OpenFst: {why}");
                    return ExitCode::FAILURE;
                }
            }
        }
        println!("\nHow the cost grows with the cells, each at its full grant of 4095 / cells. The cells hold the figures and letters of positions,");
        println!("2 to 8 alternatives each. Positions are sought, not dates: their openings go on up to 17 symbols, those of dates end with 8.");
        println!("A line of 2 cells has too few chains to use its grant up. {HEADER}");
        for cells in [2, 4, 8, 16, 24] {
            let lot = Lot::positions(&mut random, options.lines, cells);
            Work::of(&lot, 4_095 / cells, usize::MAX).tell(options.rounds);
        }
        ExitCode::SUCCESS
    }

    fn options() -> Result<Options, String> {
        let mut options = Options { draw: 20_022_023, lines: 1_000, rounds: 15, openfst: None, file: "lines.txt".into() };
        let mut words = std::env::args().skip(1);
        while let Some(word) = words.next() {
            let mut value = || words.next().ok_or(format!("{word} wants a value"));
            let number = |word: String| word.parse::<usize>().map_err(|_| format!("{word} is no number"));
            match word.as_str() {
                "--draw" => options.draw = number(value()?)? as u64,
                "--lines" => options.lines = number(value()?)?.max(1),
                "--rounds" => options.rounds = number(value()?)?.max(1),
                "--openfst" => options.openfst = Some(value()?),
                "--file" => options.file = value()?,
                _ => return Err(format!("unknown word {word}")),
            }
        }
        Ok(options)
    }

    const FOR_DATES: Seeking = Seeking { grammar: DATES, score: SUM, south: 0, north: 0, west: 0, east: 0 };

    /// Microseconds of a run without rows.
    fn empty_run(rounds: usize) -> f64 {
        const RUNS: usize = 200;
        let round = |_| {
            let start = Clock::start();
            for _ in 0..RUNS {
                assert_eq!(linked::run(black_box(&FOR_DATES), &[], &mut [], &mut []), DONE);
            }
            start.microseconds() / RUNS as f64
        };
        median((0..rounds).map(round).collect())
    }

    /// The time that the processor worked for this thread, so that other programs of a busy machine count little.
    struct Clock {
        start: f64,
    }

    impl Clock {
        fn start() -> Clock {
            Clock { start: Clock::now() }
        }

        fn microseconds(&self) -> f64 {
            Clock::now() - self.start
        }

        fn now() -> f64 {
            const CLOCK_THREAD_CPUTIME_ID: i32 = 3;
            extern "C" {
                fn clock_gettime(clock: i32, time: *mut [i64; 2]) -> i32;
            }
            let mut time = [0, 0];
            assert_eq!(unsafe { clock_gettime(CLOCK_THREAD_CPUTIME_ID, &mut time) }, 0);
            time[0] as f64 * 1e6 + time[1] as f64 / 1e3
        }
    }

    fn median(mut times: Vec<f64>) -> f64 {
        times.sort_by(f64::total_cmp);
        times[times.len() / 2]
    }

    /// Lines of one kind, each a page of its own.
    struct Lot {
        name: String,
        seeking: Seeking,
        cells: usize,
        lines: Vec<page::Line>,
        bytes: Vec<u8>,
        parts: Vec<std::ops::Range<usize>>,
    }

    impl Lot {
        fn of(name: String, seeking: Seeking, lines: Vec<page::Line>) -> Lot {
            let (mut bytes, mut parts) = (Vec::new(), Vec::new());
            for line in &lines {
                let page = write_page(std::slice::from_ref(line));
                parts.push(bytes.len()..bytes.len() + page.len());
                bytes.extend(page);
            }
            Lot { name, seeking, cells: lines[0].cells.len(), lines, bytes, parts }
        }

        /// Lines near dates, of up to so many alternatives a cell.
        fn dates(name: &str, random: &mut Random, count: usize, most_alternatives: usize) -> Lot {
            let (best, kept) = if most_alternatives <= 3 { (70, 100) } else { (40, 99) };
            let shape =
                Shape { most_chains: usize::MAX >> 4, most_alternatives, growth: Growth::Small, highest: u16::MAX, best, kept };
            let line = |_| {
                let text = make::day(random);
                make::line_near(random, &text, shape)
            };
            Lot::of(name.into(), FOR_DATES, (0..count).map(line).collect())
        }

        /// Lines of figures and letters with which a position may go on.
        fn positions(random: &mut Random, count: usize, cells: usize) -> Lot {
            let symbols_at = |cell: usize| -> &[u8] {
                match cell {
                    0 | 9 => b"01234567",
                    2 | 11 => b"012345",
                    7 => b"NS",
                    8 => b"01",
                    16 => b"EW",
                    _ => b"0123456789",
                }
            };
            let line = |_| {
                let cell = |cell: usize| {
                    let mut symbols = symbols_at(cell).to_vec();
                    random.shuffle(&mut symbols);
                    symbols.truncate(8);
                    make::cell(random, &symbols, Growth::Small, u16::MAX)
                };
                page::Line { cells: (0..cells).map(cell).collect() }
            };
            let seeking = Seeking { grammar: POSITIONS, ..FOR_DATES };
            Lot::of(format!("{cells} cells"), seeking, (0..count).map(line).collect())
        }
    }

    const HEADER: &str = "Looks and readings a line, then ours and plain: a line, a look.";

    /// What is done with the lines of a lot: each is loaded, granted so much, and nexts follow until none is found or there were
    /// enough of them.
    struct Work<'a> {
        lot: &'a Lot,
        grant: usize,
        most_nexts: usize,
        /// The rows of the library, and behind each next where its place starts.
        rows: Vec<Row>,
        places: usize,
        looks: usize,
        readings: usize,
        /// The total of the first reading of each line.
        first: Vec<Option<u32>>,
    }

    impl Work<'_> {
        /// Does the work once with both, and compares them.
        fn of(lot: &Lot, grant: usize, most_nexts: usize) -> Work<'_> {
            let plain = Told::by_plain(lot, grant, most_nexts);
            let mut work = Work {
                lot,
                grant,
                most_nexts,
                rows: Vec::new(),
                places: 0,
                looks: plain.looks,
                readings: plain.texts.len(),
                first: plain.first.clone(),
            };
            work.rows = work.make_rows(&plain.nexts, false);
            work.places = lot.cells * plain.nexts.iter().sum::<usize>();
            work.compare(&plain);
            work
        }

        fn make_rows(&self, nexts: &[usize], reports: bool) -> Vec<Row> {
            let mut rows = Vec::new();
            let mut place = 0;
            let mut add = |call, start, length, number| {
                rows.push(Row { asked: Asked { call, start, length, number }, came: Came::plain(NOT_MADE) });
            };
            for (part, nexts) in self.lot.parts.iter().zip(nexts) {
                add(LOAD, part.start, part.len(), 0);
                if self.grant > 0 {
                    add(GRANT_MORE, 0, 0, self.grant);
                }
                for _ in 0..*nexts {
                    add(NEXT, place, self.lot.cells, 0);
                    place += self.lot.cells;
                }
                if reports {
                    add(REPORT, 0, 0, 0);
                }
            }
            rows
        }

        /// The same readings, in the same order, with the same looks, and the same ends.
        fn compare(&self, plain: &Told) {
            let mut rows = self.make_rows(&plain.nexts, true);
            let mut places = vec![0; self.places];
            assert_eq!(linked::run(&self.lot.seeking, &self.lot.bytes, &mut places, &mut rows), DONE);
            assert!(rows.iter().all(|row| row.came.outcome != REFUSED), "a call was refused");
            let nexts = || rows.iter().filter(|row| row.asked.call == NEXT);
            let found = nexts().filter(|row| row.came.outcome == FOUND);
            let texts: Vec<&[u8]> = found.map(|row| &places[row.asked.start..row.asked.start + row.came.written]).collect();
            assert!(texts == plain.texts, "the readings differ");
            let outcomes: Vec<u32> = nexts().map(|row| row.came.outcome).collect();
            assert!(outcomes == plain.outcomes, "the outcomes differ");
            let looked: Vec<usize> = rows.iter().filter(|row| row.asked.call == REPORT).map(|row| row.came.looked).collect();
            assert!(looked == plain.looked, "the looks differ");
        }

        /// Times both, and answers the time of ours and of plain for a line.
        fn tell(&self, rounds: usize) -> (f64, f64) {
            let (mut ours, mut plain) = (Vec::new(), Vec::new());
            let mut rows = self.rows.clone();
            let mut places = vec![0; self.places];
            for round in 0..rounds {
                if round % 2 == 0 {
                    ours.push(self.time_ours(&mut rows, &mut places));
                    plain.push(self.time_plain(&mut places));
                } else {
                    plain.push(self.time_plain(&mut places));
                    ours.push(self.time_ours(&mut rows, &mut places));
                }
            }
            let lines = self.lot.lines.len() as f64;
            let (ours, plain) = (median(ours) / lines, median(plain) / lines);
            let looks = self.looks as f64 / lines;
            let a_look = |time: f64| if self.looks == 0 { "-".into() } else { format!("{:.4}", time / looks) };
            println!(
                "{:>8}, grant {:>4}: looks {looks:>7.1}, readings {:>6.2}, ours {ours:>9.3} {:>8}, plain {plain:>9.3} {:>8}, ours / plain {:.2}",
                self.lot.name,
                self.grant,
                self.readings as f64 / lines,
                a_look(ours),
                a_look(plain),
                ours / plain
            );
            (ours, plain)
        }

        fn time_ours(&self, rows: &mut [Row], places: &mut [u8]) -> f64 {
            let start = Clock::start();
            let answer = linked::run(black_box(&self.lot.seeking), black_box(&self.lot.bytes), places, rows);
            let time = start.microseconds();
            assert_eq!(answer, DONE);
            black_box((rows, places));
            time
        }

        fn time_plain(&self, places: &mut [u8]) -> f64 {
            let start = Clock::start();
            match self.lot.seeking.grammar {
                DATES => self.search_all(Search::<Dates>::default(), places),
                _ => self.search_all(Search::<Positions>::default(), places),
            }
            let time = start.microseconds();
            black_box(places);
            time
        }

        fn search_all<G: outside::plain::Grammar>(&self, mut search: Search<G>, places: &mut [u8]) {
            let cells = self.lot.cells;
            let mut places = places.chunks_exact_mut(cells);
            let mut text = [0; MOST_CELLS];
            for part in &self.lot.parts {
                let line = Line::read(black_box(&self.lot.bytes[part.clone()])).expect("the pages are good");
                search.load(line);
                search.grant(self.grant);
                for _ in 0..self.most_nexts {
                    let Some(place) = places.next() else { break };
                    match search.next(&mut text) {
                        Next::Found { .. } => place.copy_from_slice(&text[..cells]),
                        _ => break,
                    }
                }
            }
            black_box(&search);
        }
    }

    /// What the plain search tells of the lines of a lot.
    #[derive(Default)]
    struct Told {
        /// How many nexts each line takes.
        nexts: Vec<usize>,
        texts: Vec<Vec<u8>>,
        outcomes: Vec<u32>,
        looked: Vec<usize>,
        looks: usize,
        first: Vec<Option<u32>>,
    }

    impl Told {
        fn by_plain(lot: &Lot, grant: usize, most_nexts: usize) -> Told {
            match lot.seeking.grammar {
                DATES => Told::by(Search::<Dates>::default(), lot, grant, most_nexts),
                _ => Told::by(Search::<Positions>::default(), lot, grant, most_nexts),
            }
        }

        fn by<G: outside::plain::Grammar>(mut search: Search<G>, lot: &Lot, grant: usize, most_nexts: usize) -> Told {
            let mut told = Told::default();
            let mut text = [0; MOST_CELLS];
            for part in &lot.parts {
                search.load(Line::read(&lot.bytes[part.clone()]).expect("the pages are good"));
                search.grant(grant);
                let (mut nexts, mut first) = (0, None);
                while nexts < most_nexts {
                    nexts += 1;
                    let next = search.next(&mut text);
                    told.outcomes.push(match next {
                        Next::Found { .. } => FOUND,
                        Next::Spent => SPENT,
                        Next::Exhausted => EXHAUSTED,
                    });
                    let Next::Found { total } = next else { break };
                    told.texts.push(text[..lot.cells].to_vec());
                    first = first.or(Some(total));
                }
                told.nexts.push(nexts);
                told.first.push(first);
                told.looked.push(search.looked());
                told.looks += search.looked();
            }
            told
        }
    }

    /// Gives the lines to OpenFst's program, and tells its time beside ours and plain's.
    fn openfst(program: &str, options: &Options, lot: &Lot, first: &Work, (ours, plain): (f64, f64)) -> Result<(), String> {
        std::fs::write(&options.file, lines_file(lot, &first.first)).map_err(|why| why.to_string())?;
        let ran =
            Command::new(program).arg(&options.file).arg(options.rounds.to_string()).output().map_err(|why| why.to_string())?;
        let told = String::from_utf8_lossy(&ran.stdout).into_owned();
        let words: Vec<f64> = told.split_whitespace().filter_map(|word| word.parse().ok()).collect();
        let [time, agreed, compared, found, states] = words[..] else {
            return Err(format!("it answered {:?}, {}", ran.status.code(), told.trim()));
        };
        println!(
            "{:>8}, OpenFst (dates: {states} states): {time:.3} a line, {:.1} times ours, {:.1} times plain; its best total is ours on {agreed} of {compared} lines where we found one, and it finds a date on {found}",
            lot.name,
            time / ours,
            time / plain
        );
        if agreed != compared {
            return Err("its best total differs from ours".into());
        }
        Ok(())
    }

    /// For each line its best total or -1, how many cells, and for each cell how many alternatives and their symbols and penalties.
    fn lines_file(lot: &Lot, first: &[Option<u32>]) -> String {
        let mut text = String::new();
        for (line, total) in lot.lines.iter().zip(first) {
            write!(text, "{} {}", total.map_or(-1, i64::from), line.cells.len()).unwrap();
            for cell in &line.cells {
                write!(text, " {}", cell.alternatives.len()).unwrap();
                for one in &cell.alternatives {
                    write!(text, " {} {}", one.symbol, one.penalty).unwrap();
                }
            }
            text.push('\n');
        }
        text
    }
}

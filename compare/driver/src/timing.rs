//! Processor times of several sides, taken in turn, and the ratios of them as lines of a table.
use crate::clock;

/// Sides that are timed next to each other in the same rounds, and what is told of them.
pub struct Group<'a> {
    sides: Vec<Side<'a>>,
    ratios: Vec<Ratio>,
    /// It is timed in the first of so many rounds.
    every: usize,
}

struct Side<'a> {
    /// Seconds so far of whatever goes over the pages.
    clock: fn() -> f64,
    pages: usize,
    /// Goes once over its pages.
    pass: Box<dyn FnMut() + 'a>,
    /// Passes in a round.
    passes: usize,
    /// Whether a pass needs no other to be warm.
    long: bool,
    /// Seconds a page, by round.
    times: Vec<f64>,
}

struct Ratio {
    question: &'static str,
    pages: &'static str,
    reader: usize,
    original: usize,
    limit: Option<f64>,
}

/// A line of the table.
struct Line {
    question: &'static str,
    pages: &'static str,
    text: String,
    over: bool,
}

/// A timing lasts so many seconds or more, so that the clock and cold caches do not count.
const LEAST: f64 = 0.001;

/// A pass that lasts so many seconds needs no other to be warm.
const LONG: f64 = 0.1;

/// Times all sides of a group in each of its rounds. Passes before the first round are not counted, three or one that is long: they warm code
/// and pages, and find how many passes last long enough.
pub fn time(groups: &mut [Group<'_>], rounds: usize) {
    groups.iter_mut().flat_map(|g| &mut g.sides).for_each(Side::warm);
    for round in 0..rounds {
        groups.iter_mut().filter(|g| round % g.every == 0).for_each(Group::round);
    }
}

/// The table in Markdown, the lines of a question together, and which of them are over their limit.
pub fn table(groups: &[Group<'_>]) -> (String, Vec<String>) {
    let mut lines: Vec<Line> = groups.iter().flat_map(|g| g.ratios.iter().map(|r| g.line(r))).collect();
    let questions: Vec<&str> = lines.iter().map(|l| l.question).collect();
    lines.sort_by_key(|l| questions.iter().position(|&q| q == l.question));
    let head = ["| question | pages | ratio | quartiles | limit | the other side, a page |", "|---|---|---|---|---|---|"];
    let text: Vec<&str> = head.into_iter().chain(lines.iter().map(|l| &l.text[..])).collect();
    let over = lines.iter().filter(|l| l.over).map(|l| format!("{} ({})", l.question, l.pages)).collect();
    (text.join("\n"), over)
}

impl Default for Group<'_> {
    fn default() -> Self {
        Group::every(1)
    }
}

impl<'a> Group<'a> {
    /// Of sides that take too long for each round: they are timed in one of so many.
    pub fn every(every: usize) -> Self {
        Group { sides: Vec::new(), ratios: Vec::new(), every }
    }

    /// A side's place in the group. `pass` goes once over `pages` pages, in this thread.
    pub fn side(&mut self, pages: usize, pass: impl FnMut() + 'a) -> usize {
        self.side_by(clock::of_thread, pages, pass)
    }

    /// The same of a pass that starts a process and waits for its end.
    pub fn process(&mut self, pages: usize, pass: impl FnMut() + 'a) -> usize {
        self.side_by(clock::of_children, pages, pass)
    }

    fn side_by(&mut self, clock: fn() -> f64, pages: usize, pass: impl FnMut() + 'a) -> usize {
        self.sides.push(Side { clock, pages, pass: Box::new(pass), passes: 1, long: false, times: Vec::new() });
        self.sides.len() - 1
    }

    /// Asks for a line: the time a page of side `reader`, of that of side `original`, or of another that the question names.
    pub fn ratio(&mut self, question: &'static str, pages: &'static str, reader: usize, original: usize, limit: Option<f64>) {
        self.ratios.push(Ratio { question, pages, reader, original, limit });
    }

    /// The median of a side's times, in seconds a page.
    pub fn median(&self, side: usize) -> f64 {
        quartiles(self.sides[side].times.clone())[1]
    }

    /// The first side changes with the round.
    fn round(&mut self) {
        let (n, round) = (self.sides.len(), self.sides[0].times.len());
        (0..n).for_each(|turn| self.sides[(round + turn) % n].round());
    }

    fn line(&self, r: &Ratio) -> Line {
        let (reader, original) = (&self.sides[r.reader].times, &self.sides[r.original].times);
        let ratios = quartiles(reader.iter().zip(original).map(|(a, b)| a / b).collect());
        let [low, median, high] = ratios.map(short);
        let a_page = short(1e6 * self.median(r.original));
        let limit = r.limit.map_or(String::new(), |limit| format!("{limit:?}"));
        Line {
            question: r.question,
            pages: r.pages,
            text: format!("| {} | {} | {median} | {low} to {high} | {limit} | {a_page} µs |", r.question, r.pages),
            over: r.limit.is_some_and(|limit| ratios[1] > limit),
        }
    }
}

impl Side<'_> {
    fn warm(&mut self) {
        let first = self.seconds();
        let fastest = if first < LONG { first.min(self.seconds()).min(self.seconds()) } else { first };
        self.passes = (LEAST / fastest).ceil() as usize;
        self.long = fastest >= LONG;
    }

    /// All but long passes begin with one that is not counted: it brings back what the sides before have put out of the caches.
    fn round(&mut self) {
        if !self.long {
            (self.pass)();
        }
        let seconds = self.seconds();
        self.times.push(seconds / (self.passes * self.pages) as f64);
    }

    fn seconds(&mut self) -> f64 {
        let begun = (self.clock)();
        (0..self.passes).for_each(|_| (self.pass)());
        (self.clock)() - begun
    }
}

fn quartiles(mut v: Vec<f64>) -> [f64; 3] {
    v.sort_by(f64::total_cmp);
    [1, 2, 3].map(|q| v[(v.len() - 1) * q / 4])
}

/// With two digits that count below 1, and with three from there on.
pub fn short(x: f64) -> String {
    let digits = if x < 1.0 { 1.0 } else { 2.0 };
    let places = (digits - x.log10().floor()).max(0.0) as usize;
    format!("{x:.places$}")
}

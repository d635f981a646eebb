//! The picture of a survey: an SVG with a cell for each page, or in a large file for each block, in the colour of what became of it.
use std::io::{self, BufWriter, Write};
use std::ops::Range;

use crate::outcome::Outcome;
use crate::source::BLOCK;
use crate::words::grouped;

pub struct Picture<'a> {
    pub name: &'a str,
    /// The number of the first page.
    pub first: u64,
    pub outcomes: &'a [Outcome],
    pub subtitle: &'a str,
}

pub fn write(out: &mut impl Write, picture: &Picture) -> io::Result<()> {
    let sheet = Sheet::of(picture);
    let mut out = BufWriter::new(out);
    sheet.write_head(&mut out)?;
    sheet.write_legend(&mut out)?;
    sheet.write_labels(&mut out)?;
    if sheet.grid.has_page_cells() {
        sheet.write_blocks(&mut out)?
    } else {
        sheet.write_runs(&mut out)?
    }
    sheet.write_signs(&mut out)?;
    writeln!(out, "</svg>")?;
    out.flush()
}

/// Cells of a block's row, where each of its pages has a cell.
const BLOCK_SIDE: u64 = 4;

/// The most pages that have a cell each; in a larger file a block has one.
const MOST_PAGE_CELLS: usize = 65_536;

/// How cells are laid out, in pixels. Rows are about as wide as a page of paper is on a screen.
struct Grid {
    /// Blocks in a row.
    columns: u64,
    /// From a block to the next.
    pitch: u64,
    /// From a cell to the next.
    cell: u64,
    /// Between cells.
    gap: u64,
}

const PAGE_GRIDS: &[Grid] = &[
    Grid { columns: 16, pitch: 68, cell: 16, gap: 1 },
    Grid { columns: 32, pitch: 34, cell: 8, gap: 1 },
    Grid { columns: 64, pitch: 17, cell: 4, gap: 0 },
];

const BLOCK_GRIDS: &[Grid] = &[
    Grid { columns: 128, pitch: 8, cell: 8, gap: 0 },
    Grid { columns: 256, pitch: 4, cell: 4, gap: 0 },
    Grid { columns: 512, pitch: 2, cell: 2, gap: 0 },
    Grid { columns: 1024, pitch: 1, cell: 1, gap: 0 },
];

impl Grid {
    /// The largest cells under which the picture is no higher than a page of paper, for its width.
    fn fitting(pages: usize, blocks: u64) -> &'static Grid {
        let grids = if pages <= MOST_PAGE_CELLS { PAGE_GRIDS } else { BLOCK_GRIDS };
        let smallest = &grids[grids.len() - 1];
        grids.iter().find(|grid| blocks.div_ceil(grid.columns) * 5 <= grid.columns * 7).unwrap_or(smallest)
    }

    fn has_page_cells(&self) -> bool {
        self.cell < self.pitch
    }

    /// Whether cells are so many that one of them is easily overlooked.
    fn has_signs(&self) -> bool {
        self.columns >= 64
    }

    /// How many rows have one page number at their left: as many as a line of text is high.
    fn band(&self) -> u64 {
        LABEL_HEIGHT.div_ceil(self.pitch)
    }
}

/// A colour and what is drawn over it, so that the colour is not the only sign.
struct Look {
    fill: &'static str,
    mark: Mark,
    ink: &'static str,
}

#[derive(Clone, Copy, PartialEq)]
enum Mark {
    None,
    Ring,
    Dash,
    Slash,
    Bar,
    Cross,
}

/// Pages that were read are cool and get lighter as less confirms them; the others are warm. Any two fills differ by at least 14
/// (CIEDE2000), to normal sight and in the simulations of Machado and others (2009) of sight without red, green or blue cones.
fn look(outcome: Outcome) -> Look {
    let (fill, mark, ink) = match outcome {
        Outcome::Unallocated => ("#e4e8eb", Mark::None, "none"),
        Outcome::Superblock => ("#000000", Mark::None, "none"),
        Outcome::Verified => ("#0b3c6f", Mark::None, "none"),
        Outcome::Calibrated => ("#2a7fbf", Mark::None, "none"),
        Outcome::Corroborated => ("#74c3ec", Mark::None, "none"),
        Outcome::Unverified => ("#8eb77a", Mark::Ring, "#000"),
        Outcome::Undecided => ("#f0e442", Mark::Dash, "#000"),
        Outcome::Damaged => ("#e08a00", Mark::Slash, "#000"),
        Outcome::CutShort => ("#84475b", Mark::Bar, "#fff"),
        Outcome::Unread => ("#c8102e", Mark::Cross, "#fff"),
    };
    Look { fill, mark, ink }
}

/// Below this size in pixels a mark can't be made out.
const SMALLEST_MARKED: u64 = 4;

impl Mark {
    /// The strokes of the mark in a cell, for a path.
    fn strokes(self, x: u64, y: u64, size: u64) -> String {
        let (inset, length) = (size as f64 / 4.0, size as f64 / 2.0);
        let (left, top) = (x as f64 + inset, y as f64 + inset);
        let (right, bottom, middle) = (left + length, top + length, top + length / 2.0);
        match self {
            Mark::None => String::new(),
            Mark::Ring => format!("M{left} {middle}a{inset} {inset} 0 1 0 {length} 0a{inset} {inset} 0 1 0 -{length} 0"),
            Mark::Dash => format!("M{left} {middle}H{right}"),
            Mark::Slash => format!("M{left} {bottom}L{right} {top}"),
            Mark::Bar => format!("M{} {top}V{bottom}", left + inset),
            Mark::Cross => format!("M{left} {top}L{right} {bottom}M{left} {bottom}L{right} {top}"),
        }
    }
}

const MARGIN: u64 = 20;
const TITLE_SIZE: u64 = 22;
const TEXT_SIZE: u64 = 14;
const LABEL_SIZE: u64 = 12;
const LABEL_HEIGHT: u64 = 16;
const TITLE_BASE: u64 = 40;
const SUBTITLE_BASE: u64 = 64;
const LEGEND_TOP: u64 = 82;
const LEGEND_ROW: u64 = 24;
const SWATCH: u64 = 16;
/// From the top of a swatch, or of a row's label, to the base of its text.
const TEXT_BASE: u64 = 13;
const LABEL_BASE: u64 = 12;
/// Between a swatch and its text, and between labels and cells.
const SPACE: u64 = 8;
/// A sign at the right of rows with pages that were not read.
const SIGN: u64 = 12;
const SIGN_PITCH: u64 = 14;
const WIDEST: u64 = 1_200;

const PAGE_CELLS_NOTE: &str = "A cell is a page, 4 by 4 cells are a block of 16.";
const BLOCK_CELLS_NOTE: &str = "A cell is a block of 16 pages, in the colour of its worst page.";
const LABELS_NOTE: &str = "At the left: the number of the row's first page.";
const SIGNS_NOTE: &str = "At the right: why pages of those rows were not read.";

type Counts = [u64; Outcome::COUNT];

/// A picture with its measures.
struct Sheet<'a> {
    picture: &'a Picture<'a>,
    grid: &'static Grid,
    /// The numbers of the blocks.
    blocks: Range<u64>,
    counts: Counts,
    width: u64,
    height: u64,
    /// Legend items in a row, and the room of one.
    legend: (u64, u64),
    note_top: u64,
    /// Where the cells begin.
    left: u64,
    top: u64,
}

/// Neighbouring cells that are drawn as one.
struct Span {
    x: u64,
    y: u64,
    cells: u64,
    outcome: Outcome,
}

impl<'a> Sheet<'a> {
    fn of(picture: &'a Picture<'a>) -> Sheet<'a> {
        let end = picture.first + picture.outcomes.len() as u64;
        let blocks = picture.first / BLOCK..end.div_ceil(BLOCK).max(picture.first / BLOCK);
        let grid = Grid::fitting(picture.outcomes.len(), blocks.end - blocks.start);
        let counts = counts(picture.outcomes);
        let mut sheet = Sheet { picture, grid, blocks, counts, width: 0, height: 0, legend: (1, 0), note_top: 0, left: 0, top: 0 };
        sheet.measure(end);
        sheet
    }

    /// From left to right, then from the top down.
    fn measure(&mut self, end: u64) {
        self.left = MARGIN + text_width(&grouped(end), LABEL_SIZE) + SPACE;
        let cells = (self.blocks.end - self.blocks.start).min(self.grid.columns) * self.grid.pitch;
        let signs = SPACE + self.signs().count() as u64 * SIGN_PITCH;
        let texts = [(self.picture.name, TITLE_SIZE), (self.picture.subtitle, TEXT_SIZE), (&self.note(), LABEL_SIZE)];
        let widest_text = texts.iter().map(|&(text, size)| text_width(text, size) + 2 * MARGIN).max().unwrap_or(0);
        self.width = (self.left + cells + signs + MARGIN).max(widest_text.min(WIDEST));

        let items = self.present().map(|(outcome, count)| text_width(&format!("{outcome} {}", grouped(count)), TEXT_SIZE));
        let room = SWATCH + SPACE + items.max().unwrap_or(0) + 2 * SPACE;
        let columns = ((self.width - 2 * MARGIN + 2 * SPACE) / room).max(1);
        self.legend = (columns, room);
        self.note_top = LEGEND_TOP + (self.present().count() as u64).div_ceil(columns) * LEGEND_ROW + SPACE / 2;
        self.top = self.note_top + LABEL_HEIGHT + SPACE;
        self.height = self.top + self.rows() * self.grid.pitch + MARGIN;
    }

    fn rows(&self) -> u64 {
        (self.blocks.end - self.blocks.start).div_ceil(self.grid.columns)
    }

    fn present(&self) -> impl Iterator<Item = (Outcome, u64)> {
        Outcome::ALL.into_iter().zip(self.counts).filter(|&(_, count)| count > 0)
    }

    /// What has a sign beside its rows, the worst first: what kept pages from being read, where their cells are small.
    fn signs(&self) -> impl Iterator<Item = Outcome> {
        let worst_first = Outcome::ALL.into_iter().rev().filter(|_| self.grid.has_signs());
        worst_first.filter(|&outcome| !outcome.is_read() && self.counts[outcome as usize] > 0)
    }

    fn note(&self) -> String {
        let cells = if self.grid.has_page_cells() { PAGE_CELLS_NOTE } else { BLOCK_CELLS_NOTE };
        let signs = if self.signs().next().is_some() { SIGNS_NOTE } else { "" };
        format!("{cells} {LABELS_NOTE} {signs}").trim_end().to_string()
    }

    /// The pages of these blocks: the first one's number, and their outcomes.
    fn pages(&self, blocks: Range<u64>) -> (u64, &'a [Outcome]) {
        let Picture { first, outcomes, .. } = *self.picture;
        let from = (blocks.start * BLOCK).max(first);
        let to = (blocks.end * BLOCK).min(first + outcomes.len() as u64).max(from);
        (from, &outcomes[(from - first) as usize..(to - first) as usize])
    }

    fn worst(&self, block: u64) -> Outcome {
        self.pages(block..block + 1).1.iter().copied().max().unwrap_or(Outcome::Unallocated)
    }

    fn corner(&self, block: u64) -> (u64, u64) {
        let index = block - self.blocks.start;
        (self.left + index % self.grid.columns * self.grid.pitch, self.top + index / self.grid.columns * self.grid.pitch)
    }

    /// The blocks of these rows.
    fn blocks_of(&self, rows: Range<u64>) -> Range<u64> {
        let at = |row: u64| (self.blocks.start + row * self.grid.columns).min(self.blocks.end);
        at(rows.start)..at(rows.end)
    }

    fn tooltip(&self, blocks: Range<u64>) -> String {
        let (first, pages) = self.pages(blocks.clone());
        let blocks = numbers("block", blocks.start, blocks.end - blocks.start);
        format!("{blocks}, {}: {}", numbers("page", first, pages.len() as u64), tally(counts(pages)))
    }

    fn write_head(&self, out: &mut impl Write) -> io::Result<()> {
        let (width, height) = (self.width, self.height);
        writeln!(out, "<svg xmlns=\"http://www.w3.org/2000/svg\" font-family=\"sans-serif\"")?;
        writeln!(out, " width=\"{width}\" height=\"{height}\" viewBox=\"0 0 {width} {height}\">")?;
        writeln!(out, "<title>{}</title>", escaped(self.picture.name))?;
        writeln!(out, "<style>")?;
        writeln!(out, "text{{font-size:{TEXT_SIZE}px;fill:#222}} .label{{font-size:{LABEL_SIZE}px;fill:#555}} .count{{font-weight:bold}}")?;
        for (outcome, _) in self.present() {
            let (Look { fill, ink, mark }, class) = (look(outcome), outcome as u8);
            writeln!(out, ".o{class}{{fill:{fill};shape-rendering:crispEdges}}")?;
            if mark != Mark::None {
                writeln!(out, ".m{class}{{fill:none;stroke:{ink};stroke-linecap:round}} .reach .o{class}{{stroke:{fill};stroke-width:2}}")?;
            }
        }
        writeln!(out, "</style>")?;
        writeln!(out, "<rect width=\"{width}\" height=\"{height}\" fill=\"#fff\"/>")?;
        let room = width - 2 * MARGIN;
        let title = escaped(&fitted(self.picture.name, TITLE_SIZE, room));
        writeln!(out, "<text x=\"{MARGIN}\" y=\"{TITLE_BASE}\" style=\"font-size:{TITLE_SIZE}px;font-weight:bold\">{title}</text>")?;
        writeln!(out, "<text x=\"{MARGIN}\" y=\"{SUBTITLE_BASE}\">{}</text>", escaped(&fitted(self.picture.subtitle, TEXT_SIZE, room)))
    }

    fn write_legend(&self, out: &mut impl Write) -> io::Result<()> {
        let (columns, room) = self.legend;
        for (index, (outcome, count)) in (0..).zip(self.present()) {
            let (x, y) = (MARGIN + index % columns * room, LEGEND_TOP + index / columns * LEGEND_ROW);
            write_spans(out, &[Span { x, y, cells: 1, outcome }], SWATCH, 0)?;
            let (text, base) = (x + SWATCH + SPACE, y + TEXT_BASE);
            writeln!(out, "<text x=\"{text}\" y=\"{base}\">{outcome} <tspan class=\"count\">{}</tspan></text>", grouped(count))?;
        }
        let base = self.note_top + LABEL_BASE;
        writeln!(out, "<text class=\"label\" x=\"{MARGIN}\" y=\"{base}\">{}</text>", self.note())
    }

    fn write_labels(&self, out: &mut impl Write) -> io::Result<()> {
        for row in (0..self.rows()).step_by(self.grid.band() as usize) {
            let (_, y) = self.corner(self.blocks_of(row..row + 1).start);
            let number = grouped(self.blocks_of(row..row + 1).start * BLOCK);
            let (x, base) = (self.left - SPACE, y + LABEL_BASE);
            writeln!(out, "<text class=\"label\" text-anchor=\"end\" x=\"{x}\" y=\"{base}\">{number}</text>")?;
        }
        Ok(())
    }

    fn write_blocks(&self, out: &mut impl Write) -> io::Result<()> {
        for block in self.blocks.clone() {
            let (left, top) = self.corner(block);
            let (first, pages) = self.pages(block..block + 1);
            let spans: Vec<Span> = (first % BLOCK..)
                .zip(pages)
                .map(|(cell, &outcome)| Span {
                    x: left + cell % BLOCK_SIDE * self.grid.cell,
                    y: top + cell / BLOCK_SIDE * self.grid.cell,
                    cells: 1,
                    outcome,
                })
                .collect();
            self.write_group(out, block..block + 1, &spans)?;
        }
        Ok(())
    }

    /// Cells of pages that were not read come last: small ones reach over their neighbours, unless so many would mislead.
    fn write_runs(&self, out: &mut impl Write) -> io::Result<()> {
        let stretch = self.stretch();
        self.write_rows(out, stretch, Outcome::is_read)?;
        let reach = if stretch.is_none() && self.grid.cell < SMALLEST_MARKED { " class=\"reach\"" } else { "" };
        writeln!(out, "<g{reach}>")?;
        self.write_rows(out, stretch, |outcome| !outcome.is_read())?;
        writeln!(out, "</g>")
    }

    fn write_rows(&self, out: &mut impl Write, stretch: Option<u64>, drawn: fn(Outcome) -> bool) -> io::Result<()> {
        for row in 0..self.rows() {
            let mut rest = self.blocks_of(row..row + 1);
            while !rest.is_empty() {
                let end = stretch.map_or_else(|| self.run_end(&rest), |stretch| rest.end.min(rest.start + stretch));
                let mut spans = self.spans(rest.start..end);
                spans.retain(|span| drawn(span.outcome));
                self.write_group(out, rest.start..end, &spans)?;
                rest.start = end;
            }
        }
        Ok(())
    }

    /// If the runs of like blocks are too many for a tooltip each: how many blocks, alike or not, have one.
    fn stretch(&self) -> Option<u64> {
        let runs = (0..self.rows()).map(|row| self.spans(self.blocks_of(row..row + 1)).len() as u64).sum::<u64>();
        (runs > MOST_TOOLTIPS).then(|| self.grid.columns.div_ceil((MOST_TOOLTIPS / self.rows()).max(1)))
    }

    fn run_end(&self, blocks: &Range<u64>) -> u64 {
        let outcome = self.worst(blocks.start);
        blocks.clone().find(|&block| self.worst(block) != outcome).unwrap_or(blocks.end)
    }

    fn spans(&self, blocks: Range<u64>) -> Vec<Span> {
        let mut spans = Vec::new();
        let mut rest = blocks;
        while !rest.is_empty() {
            let end = self.run_end(&rest);
            let (x, y) = self.corner(rest.start);
            spans.push(Span { x, y, cells: end - rest.start, outcome: self.worst(rest.start) });
            rest.start = end;
        }
        spans
    }

    fn write_group(&self, out: &mut impl Write, blocks: Range<u64>, spans: &[Span]) -> io::Result<()> {
        if spans.is_empty() {
            return Ok(());
        }
        write!(out, "<g><title>{}</title>", self.tooltip(blocks))?;
        write_spans(out, spans, self.grid.cell, self.grid.gap)?;
        writeln!(out, "</g>")
    }

    /// Beside rows with pages that were not read, a sign for each reason: a cell there may be too small to see.
    fn write_signs(&self, out: &mut impl Write) -> io::Result<()> {
        let left = self.left + self.grid.columns * self.grid.pitch + SPACE;
        for row in (0..self.rows()).step_by(self.grid.band() as usize) {
            let blocks = self.blocks_of(row..row + self.grid.band());
            let counts = counts(self.pages(blocks.clone()).1);
            let (_, top) = self.corner(blocks.start);
            for (slot, outcome) in (0..).zip(self.signs()).filter(|&(_, outcome)| counts[outcome as usize] > 0) {
                let (first, pages) = self.pages(blocks.clone());
                let pages = numbers("page", first, pages.len() as u64);
                write!(out, "<g><title>{pages}: {} {outcome}</title>", grouped(counts[outcome as usize]))?;
                write_spans(out, &[Span { x: left + slot * SIGN_PITCH, y: top + 2, cells: 1, outcome }], SIGN, 0)?;
                writeln!(out, "</g>")?;
            }
        }
        Ok(())
    }
}

/// More would make a browser slow, and the file large.
const MOST_TOOLTIPS: u64 = 10_000;

/// Draws spans with a path for each outcome: in each, a cell's place is given from the one before, which is shorter.
fn write_spans(out: &mut impl Write, spans: &[Span], cell: u64, gap: u64) -> io::Result<()> {
    for outcome in Outcome::ALL {
        let alike = || spans.iter().filter(|span| span.outcome == outcome);
        if alike().next().is_none() {
            continue;
        }
        write!(out, "<path class=\"o{}\" d=\"", outcome as u8)?;
        let (mut left, mut top) = (0, 0);
        for &Span { x, y, cells, .. } in alike() {
            let (width, height) = (cells * cell - gap, cell - gap);
            write!(out, "m{} {}h{width}v{height}h-{width}z", x as i64 - left, y as i64 - top)?;
            (left, top) = (x as i64, y as i64);
        }
        write!(out, "\"/>")?;
        let mark = look(outcome).mark;
        if mark != Mark::None && cell >= SMALLEST_MARKED {
            write!(out, "<path class=\"m{}\" stroke-width=\"{}\" d=\"", outcome as u8, (cell as f64 / 8.0).max(0.8))?;
            for span in alike() {
                let lefts = (0..span.cells).map(|index| span.x + index * cell);
                lefts.map(|left| mark.strokes(left, span.y, cell - gap)).try_for_each(|strokes| out.write_all(strokes.as_bytes()))?;
            }
            write!(out, "\"/>")?;
        }
    }
    Ok(())
}

fn counts(outcomes: &[Outcome]) -> Counts {
    let mut counts = [0; Outcome::COUNT];
    for &outcome in outcomes {
        counts[outcome as usize] += 1;
    }
    counts
}

/// The counts in words, the greatest first.
fn tally(counts: Counts) -> String {
    let mut present: Vec<(u64, Outcome)> = counts.into_iter().zip(Outcome::ALL).filter(|&(count, _)| count > 0).collect();
    present.sort_by_key(|&(count, _)| std::cmp::Reverse(count));
    let words: Vec<String> = present.iter().map(|&(count, outcome)| format!("{} {outcome}", grouped(count))).collect();
    words.join(", ")
}

/// As in "page 3" and "pages 48 to 63".
fn numbers(what: &str, first: u64, count: u64) -> String {
    match count {
        1 => format!("{what} {}", grouped(first)),
        _ => format!("{what}s {} to {}", grouped(first), grouped(first + count - 1)),
    }
}

/// About how wide a letter is, in hundredths of its size; the font is the viewer's.
fn letter_width(letter: char) -> u64 {
    match letter {
        'A'..='Z' => 90,
        _ if letter.is_ascii() => 64,
        _ => 105,
    }
}

fn text_width(text: &str, size: u64) -> u64 {
    text.chars().map(letter_width).sum::<u64>() * size / 100
}

/// The text, or as much of its end as fits: a path ends in the name.
fn fitted(text: &str, size: u64, room: u64) -> String {
    let mut start = 0;
    while start < text.len() && text_width(&text[start..], size) + if start > 0 { size } else { 0 } > room {
        start += text[start..].chars().next().map_or(1, char::len_utf8);
    }
    if start == 0 { text.to_string() } else { format!("\u{2026}{}", &text[start..]) }
}

/// Text for XML, which has no control characters: these are shown by their symbols.
fn escaped(text: &str) -> String {
    let mut escaped = String::with_capacity(text.len());
    for letter in text.chars() {
        match letter {
            '&' => escaped.push_str("&amp;"),
            '<' => escaped.push_str("&lt;"),
            '>' => escaped.push_str("&gt;"),
            '\0'..='\x1f' => escaped.push(char::from_u32(0x2400 + letter as u32).unwrap_or('\u{fffd}')),
            '\x7f'..='\u{9f}' | '\u{fffe}' | '\u{ffff}' => escaped.push('\u{fffd}'),
            _ => escaped.push(letter),
        }
    }
    escaped
}

#[cfg(test)]
mod tests {
    use super::Outcome::*;
    use super::*;

    fn svg(name: &str, first: u64, outcomes: &[Outcome]) -> String {
        let mut out = Vec::new();
        write(&mut out, &Picture { name, first, outcomes, subtitle: "a sample" }).unwrap();
        let text = String::from_utf8(out).unwrap();
        check_xml(&text);
        text
    }

    /// Each tag is closed, in order; no text has a bare `&`; there is no script and nothing from elsewhere.
    fn check_xml(text: &str) {
        let mut open = Vec::new();
        for part in text.split('<').skip(1) {
            let (tag, content) = part.split_once('>').expect("a tag ends");
            match tag.strip_prefix('/') {
                Some(name) => assert_eq!(open.pop(), Some(name)),
                None if tag.ends_with('/') => {}
                None => open.push(tag.split(' ').next().unwrap()),
            }
            assert!(
                content.split('&').skip(1).all(|rest| ["amp;", "lt;", "gt;"].iter().any(|entity| rest.starts_with(entity))),
                "{content}"
            );
            assert!(!content.chars().any(|letter| letter.is_control() && letter != '\n'));
            assert!(tag.split('"').count() % 2 == 1 && !tag.contains("href") && !tag.starts_with("script"));
        }
        assert!(open.is_empty());
    }

    fn tooltips(text: &str) -> Vec<&str> {
        text.split("<g><title>").skip(1).map(|rest| rest.split('<').next().unwrap()).collect()
    }

    /// The cells of an outcome as left, top, width and height, from its paths.
    fn cells(text: &str, outcome: Outcome) -> Vec<[i64; 4]> {
        let class = format!("class=\"o{}\" d=\"", outcome as u8);
        let mut cells = Vec::new();
        for path in text.lines().filter(|line| line.starts_with("<g>")).flat_map(|line| line.split(&class).skip(1)) {
            let (mut left, mut top) = (0, 0);
            for cell in path.split('"').next().unwrap().split('z').filter(|cell| !cell.is_empty()) {
                let numbers: Vec<i64> =
                    cell.split(|letter: char| "mhv ".contains(letter)).skip(1).map(|number| number.parse().unwrap()).collect();
                (left, top) = (left + numbers[0], top + numbers[1]);
                cells.push([left, top, numbers[2], numbers[3]]);
            }
        }
        cells
    }

    fn area(cells: &[[i64; 4]]) -> i64 {
        cells.iter().map(|[_, _, width, height]| width * height).sum()
    }

    #[test]
    fn a_block_has_a_tooltip_and_a_cell_for_each_page() {
        let mut outcomes = vec![Verified; 64];
        outcomes[48..51].fill(Unallocated);
        outcomes[63] = Unread;
        let text = svg("a.db", 0, &outcomes);
        assert_eq!(tooltips(&text)[3], "block 3, pages 48 to 63: 12 verified, 3 unallocated, 1 unread");
        assert_eq!(tooltips(&text).len(), 4);
        assert_eq!(cells(&text, Verified).len(), 60);
        let (first, last) = (cells(&text, Verified)[0], cells(&text, Unread)[0]);
        assert_eq!((last[0] - first[0], last[1] - first[1]), (3 * 68 + 3 * 16, 3 * 16), "page 15 of block 3 is the last of its square");
        assert!(text.contains("class=\"m9\""), "a page that is not read has a mark");
    }

    #[test]
    fn a_range_may_begin_inside_a_block() {
        let text = svg("a.db", 21, &[Verified, Damaged]);
        assert_eq!(tooltips(&text), ["block 1, pages 21 to 22: 1 verified, 1 damaged"]);
        assert!(text.contains(">16</text>"), "the row begins with page 16, though it is not in the range");
        let label = text.lines().find(|line| line.ends_with(">16</text>")).unwrap();
        let labelled: i64 = label.split("x=\"").nth(1).unwrap().split('"').next().unwrap().parse().unwrap();
        assert_eq!(cells(&text, Verified)[0][0], labelled + 8 + 16, "page 21 is in the second column");
        assert_eq!(tooltips(&svg("a.db", 31, &[Verified])), ["block 1, page 31: 1 verified"]);
    }

    #[test]
    fn the_legend_counts_what_occurs() {
        let mut outcomes = vec![Verified; 1_234];
        outcomes.push(CutShort);
        let text = svg("a.db", 0, &outcomes);
        assert!(text.contains(">verified <tspan class=\"count\">1,234</tspan>"));
        assert!(text.contains(">cut short <tspan class=\"count\">1</tspan>"));
        assert!(!text.contains("damaged"));
    }

    #[test]
    fn names_are_escaped_and_shortened() {
        let text = svg("a&b<c>\n\u{1}\u{fffe}\".db", 0, &[Verified]);
        assert!(text.contains("<title>a&amp;b&lt;c&gt;\u{240a}\u{2401}\u{fffd}\".db</title>"));
        let long = "directory/".repeat(100) + "name.db";
        let title = fitted(&long, TITLE_SIZE, 1_000);
        assert!(title.starts_with('\u{2026}') && title.ends_with("/name.db") && text_width(&title, TITLE_SIZE) <= 1_000);
        svg(&long, 0, &[Verified]);
        svg("", 0, &[]);
    }

    #[test]
    fn above_65_536_pages_a_cell_is_a_block() {
        let mut outcomes = vec![Verified; 65_537];
        let text = svg("a.db", 0, &outcomes[1..]);
        assert_eq!((tooltips(&text).len(), cells(&text, Verified).len()), (4_096, 65_536));
        outcomes[20_000] = Unread;
        let text = svg("a.db", 0, &outcomes);
        assert!(tooltips(&text).contains(&"block 1,250, pages 20,000 to 20,015: 15 verified, 1 unread"));
        assert!(tooltips(&text).contains(&"blocks 1,251 to 1,279, pages 20,016 to 20,479: 464 verified"), "a run ends with its row");
        assert_eq!(area(&cells(&text, Verified)), 64 * 4_096);
        assert!(tooltips(&text).contains(&"pages 16,384 to 20,479: 1 unread"), "a sign beside its rows");
    }

    #[test]
    fn many_runs_share_tooltips() {
        let outcomes: Vec<Outcome> = (0..1 << 20).map(|page| if page / 16 % 2 == 0 { Verified } else { Damaged }).collect();
        let text = svg("a.db", 0, &outcomes);
        assert!(tooltips(&text).len() as u64 <= 2 * MOST_TOOLTIPS + 1_000 && text.len() < 5 << 20, "{} bytes", text.len());
        assert_eq!(area(&cells(&text, Verified)), 16 * 32_768);
    }

    #[test]
    fn twenty_gigabytes_are_a_small_picture() {
        let mut outcomes = vec![Unallocated; 5_242_880];
        for at in (0..outcomes.len()).step_by(100_003) {
            outcomes[at] = Unread;
        }
        let text = svg("a.db", 0, &outcomes);
        assert!(text.len() < 1 << 20, "{} bytes", text.len());
        assert_eq!(cells(&text, Unread).iter().filter(|cell| cell[2] == 2).count(), 53);
    }

    #[test]
    fn no_two_outcomes_look_alike() {
        for (index, &one) in Outcome::ALL.iter().enumerate() {
            for &other in &Outcome::ALL[..index] {
                assert_ne!(look(one).fill, look(other).fill);
                assert!(one.is_read() || look(one).mark != Mark::None && look(one).mark != look(other).mark);
            }
        }
    }

    #[test]
    fn thousands_are_apart() {
        assert_eq!([0, 999, 1_000, 65_536, 1_234_567].map(grouped), ["0", "999", "1,000", "65,536", "1,234,567"]);
    }
}

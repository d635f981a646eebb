//! A small map of a file for a terminal: a few lines of block characters, each of which shows the worst of its pages.
use crate::outcome::Outcome;
use crate::paint::paint;
use crate::source::BLOCK;
use crate::words::grouped;

/// The most lines that the map takes, without its legend.
const LINES: u64 = 8;
/// Narrower terminals are treated as if they had so many columns.
const NARROWEST: usize = 20;

/// The map of the pages from `first` on, with its legend, in lines of at most `width` columns.
pub fn sketch(outcomes: &[Outcome], first: u64, width: usize, colour: bool) -> String {
    let scale = Scale::of(outcomes.len() as u64, first, width.max(NARROWEST));
    let shown = scale.worst_of_each(outcomes);
    let mut lines: Vec<String> = shown.chunks(scale.columns).zip(0..).map(|(line, row)| scale.line(line, row, colour)).collect();
    lines.extend(legend(&shown, scale.pages, width.max(NARROWEST), colour));
    lines.iter().map(|line| format!("{line}\n")).collect()
}

/// What a character of the map stands for.
struct Scale {
    first: u64,
    /// The page where the first character's pages would begin; those before `first` are not there.
    start: u64,
    /// Pages of a character: 1, 2, 4, 8 or some blocks.
    pages: u64,
    /// Characters of a line.
    columns: usize,
    /// Columns of a page number.
    label: usize,
}

impl Scale {
    fn of(count: u64, first: u64, width: usize) -> Scale {
        let label = grouped(first + count.saturating_sub(1)).len();
        let columns = rounded(width.saturating_sub(label + 1));
        let most = columns as u64 * LINES;
        let fits = |&pages: &u64| (first % pages.min(BLOCK) + count).div_ceil(pages) <= most;
        let pages = [1, 2, 4, 8].into_iter().find(fits).unwrap_or_else(|| (first % BLOCK + count).div_ceil(most).next_multiple_of(BLOCK));
        Scale { first, start: first - first % pages.min(BLOCK), pages, columns, label }
    }

    fn worst_of_each(&self, outcomes: &[Outcome]) -> Vec<Outcome> {
        let (head, rest) = outcomes.split_at(outcomes.len().min((self.start + self.pages - self.first) as usize));
        [head].into_iter().chain(rest.chunks(self.pages as usize)).filter_map(|pages| pages.iter().copied().max()).collect()
    }

    fn line(&self, shown: &[Outcome], row: u64, colour: bool) -> String {
        let page = (self.start + row * self.columns as u64 * self.pages).max(self.first);
        let label = grouped(page);
        format!("{label:>width$} {}", painted(shown, colour), width = self.label)
    }
}

/// A number of columns that lets most of the page numbers at the left be round.
fn rounded(columns: usize) -> usize {
    let step = match columns {
        0..16 => 4,
        16..32 => 8,
        _ => 16,
    };
    (columns - columns % step).max(step)
}

/// The characters alone tell outcomes apart: the higher the block, the more confirms the page.
fn character(outcome: Outcome) -> char {
    match outcome {
        Outcome::Unallocated => '░',
        Outcome::Superblock => '▛',
        Outcome::Verified => '█',
        Outcome::Calibrated => '▆',
        Outcome::Corroborated => '▄',
        Outcome::Unverified => '▂',
        Outcome::Undecided => '▒',
        Outcome::Damaged => '▞',
        Outcome::CutShort => '▌',
        Outcome::Unread => '╳',
    }
}

fn painted(shown: &[Outcome], colour: bool) -> String {
    let runs = shown.chunk_by(|before, after| before == after);
    runs.map(|run| paint(run[0], &run.iter().map(|&outcome| character(outcome)).collect::<String>(), colour)).collect()
}

/// The characters that occur, and how many pages one is.
fn legend(shown: &[Outcome], pages: u64, width: usize, colour: bool) -> Vec<String> {
    let present = Outcome::ALL.into_iter().filter(|outcome| shown.contains(outcome));
    let mut items: Vec<(String, usize)> = present.map(|outcome| (entry(outcome, colour), entry(outcome, false).chars().count())).collect();
    let scale = format!("{} pages each, the worst shown", grouped(pages));
    let parts = if scale.len() <= width { vec![scale.as_str()] } else { scale.split(", ").collect() };
    if pages > 1 {
        items.extend(parts.iter().map(|part| (part.to_string(), part.len())));
    }
    wrapped(items, width)
}

fn entry(outcome: Outcome, colour: bool) -> String {
    format!("{} {outcome}", painted(&[outcome], colour))
}

/// The items in lines of at most so many columns, with two blanks between them. An item comes with its columns.
fn wrapped(items: Vec<(String, usize)>, width: usize) -> Vec<String> {
    let mut lines: Vec<String> = Vec::new();
    let mut used = width;
    for (text, columns) in items {
        match lines.last_mut() {
            Some(line) if used + 2 + columns <= width => {
                *line += &format!("  {text}");
                used += 2 + columns;
            }
            _ => {
                lines.push(text);
                used = columns;
            }
        }
    }
    lines
}

#[cfg(test)]
mod tests {
    use super::Outcome::*;
    use super::*;

    /// Outcomes of any kind, the same ones each time.
    fn some(count: usize) -> Vec<Outcome> {
        (0..count as u64).map(|page| Outcome::ALL[(page.wrapping_mul(6364136223846793005) >> 33) as usize % Outcome::COUNT]).collect()
    }

    fn without_colour(text: &str) -> String {
        text.split("\x1b[").enumerate().map(|(index, part)| if index == 0 { part } else { &part[part.find('m').unwrap() + 1..] }).collect()
    }

    #[test]
    fn a_page_is_a_character_where_there_is_room() {
        let mut outcomes = vec![Verified; 40];
        (outcomes[0], outcomes[17]) = (Superblock, Unread);
        outcomes[33..].fill(Unallocated);
        let expected = "
 0 ▛████████████████╳██████████████
32 █░░░░░░░
░ unallocated  ▛ superblock  █ verified
╳ unread
";
        assert_eq!(sketch(&outcomes, 0, 40, false), expected[1..]);
    }

    #[test]
    fn a_character_shows_its_worst_page() {
        let mut outcomes = vec![Verified; 1_000];
        outcomes[999] = Damaged;
        outcomes[8] = Undecided;
        let expected = "
  0 █▒██████████████
128 ████████████████
256 ████████████████
384 ████████████████
512 ████████████████
640 ████████████████
768 ████████████████
896 ████████████▞
█ verified
▒ undecided
▞ damaged
8 pages each
the worst shown
";
        assert_eq!(sketch(&outcomes, 0, 20, false), expected[1..]);
    }

    #[test]
    fn a_range_that_begins_inside_a_block() {
        let mut outcomes = vec![Verified; 700];
        outcomes[10] = Unread;
        outcomes[11] = Damaged;
        let text = sketch(&outcomes, 21, 20, false);
        let starts: Vec<&str> = text.lines().map(|line| &line[..3]).take(6).collect();
        assert_eq!(starts, [" 21", "144", "272", "400", "528", "656"], "after pages 21 to 23 each character has eight");
        assert!(text.starts_with(" 21 █╳▞█"), "page 31 is the last of its character");
    }

    #[test]
    fn it_fits() {
        for count in [1, 7, 40, 128, 129, 700, 5_000, 20_000] {
            for width in (20..=41).chain([79, 80, 81, 200]) {
                for first in [0, 21, 4_000_000_015] {
                    let (outcomes, scale) = (some(count), Scale::of(count as u64, first, width));
                    let text = sketch(&outcomes, first, width, false);
                    assert!(
                        text.lines().all(|line| line.chars().count() <= width),
                        "{count} pages from {first} in {width} columns:\n{text}"
                    );
                    let shown = scale.worst_of_each(&outcomes);
                    assert!(shown.len().div_ceil(scale.columns) as u64 <= LINES);
                    assert!(scale.pages.is_power_of_two() && scale.pages < BLOCK || scale.pages % BLOCK == 0);
                    for (page, outcome) in (first..).zip(&outcomes) {
                        assert!(shown[((page - scale.start) / scale.pages) as usize] >= *outcome);
                    }
                }
            }
        }
    }

    #[test]
    fn colours_end_with_the_line_and_change_nothing_else() {
        for count in [40, 700, 70_000] {
            let (plain, coloured) = (sketch(&some(count), 5, 80, false), sketch(&some(count), 5, 80, true));
            assert_eq!(without_colour(&coloured), plain);
            assert!(coloured.lines().take(count.min(4) / 4).all(|line| line.ends_with("\x1b[0m")));
            assert!(coloured.lines().all(|line| line.rfind("\x1b[").is_none_or(|at| line[at..].starts_with("\x1b[0m"))));
        }
    }

    #[test]
    fn characters_tell_outcomes_apart() {
        let mut characters = Outcome::ALL.map(character).to_vec();
        characters.sort();
        characters.dedup();
        assert_eq!(characters.len(), Outcome::COUNT);
    }

    #[test]
    fn the_legend_has_what_occurs() {
        let text = sketch(&[Verified, Unread], 0, 80, false);
        assert_eq!(text.lines().last(), Some("█ verified  ╳ unread"));
        assert_eq!(sketch(&[], 0, 80, false), "");
    }
}

//! The library that LUMEVIQO_BEFORE names, beside this one: functions of both, called as C calls them, with the same buffers.
use std::cell::RefCell;
use std::rc::Rc;

use compare::bench_pages::{COUNT, Pages};
use compare::calls::{Ask, Case, Lent, Library, decode, decode_summary, parse, scan};
use compare::timing::Group;
use lumeviqo::header::VERSION;

/// A call must not be slower than before, whatever its page. What is above 1 is the clock's: one library linked as both is at 0.97 to 1.01, also on a
/// busy machine.
const SCAN_LIMIT: f64 = 1.01;
const LIMIT: f64 = 1.03;
/// The calls go over so many buffers, since the time of the same code depends on where in memory a buffer lies.
const BUFFERS: usize = 64;

/// `Library` of functions that take these; build.rs puts the prefixes in front of the names.
macro_rules! libraries {
    ($($function:ident: $now:ident, $before:ident, ($($argument:ty),*);)*) => {
        unsafe extern "C" {
            $(
                fn $now($(_: $argument),*) -> usize;
                fn $before($(_: $argument),*) -> usize;
            )*
        }

        const NOW: Library = Library { $($function: $now),* };
        const BEFORE: Library = Library { $($function: $before),* };
    };
}

type In = *const u8;
type Out = *mut u8;

libraries! {
    scan: now_lumeviqo_scan, before_lumeviqo_scan, (u64, In, usize, Out, usize, Out, usize);
    decode: now_lumeviqo_decode, before_lumeviqo_decode, (u64, In, usize, In, usize, u8, u8, usize, Out, usize, Out, usize);
    decode_summary: now_lumeviqo_decode_summary, before_lumeviqo_decode_summary,
        (u64, In, usize, In, usize, In, usize, In, usize, u8, u8, usize, Out, usize, Out, usize);
    parse: now_lumeviqo_parse, before_lumeviqo_parse, (u64, In, usize, u8, usize, Out, usize);
}

unsafe extern "C" {
    fn before_lumeviqo_version() -> u32;
}

/// A question, and the kinds of pages that it is asked about.
pub struct Question<'a> {
    name: &'static str,
    ask: Ask,
    limit: f64,
    kinds: Vec<(&'static str, Vec<Case<'a>>)>,
}

pub fn questions<'a>(scanned: &[&'a Pages], parsed: &[&'a Pages]) -> Vec<Question<'a>> {
    let cases = |pages: &&'a Pages| (pages.name, (0..COUNT).map(|k| Case::new(pages, k)).collect());
    let question = |name, ask, limit, kinds: &[&'a Pages]| Question { name, ask, limit, kinds: kinds.iter().map(cases).collect() };
    vec![
        question("scan of a page, of the library before", scan, SCAN_LIMIT, scanned),
        question("decoding, of the library before", decode, LIMIT, scanned),
        question("decoding of a page scanned before, of the library before", decode_summary, LIMIT, scanned),
        question("parse, DIRECTORY, of the library before", parse, LIMIT, parsed),
    ]
}

/// Whether both libraries write the same bytes for each page.
pub fn check(questions: &[Question<'_>]) -> Result<(), String> {
    if unsafe { before_lumeviqo_version() } as usize != VERSION {
        return Err("the library before is of another version than the header".to_string());
    }
    let mut asked = questions.iter().flat_map(|q| q.kinds.iter().map(move |(pages, cases)| (q, pages, cases)));
    let other = asked.find(|(q, _, cases)| !cases.iter().all(|case| same(q.ask, case)));
    other.map_or(Ok(()), |(q, pages, _)| Err(format!("{pages} pages differ at: {}", q.name)))
}

fn same(ask: Ask, case: &Case<'_>) -> bool {
    let [now, before] = [NOW, BEFORE].map(|library| {
        let mut lent = Lent::new();
        (ask(&library, case, &mut lent), lent)
    });
    now == before
}

/// Both libraries on each kind of pages, over the same buffers in turn.
pub fn groups<'a>(questions: &'a [Question<'a>]) -> Vec<Group<'a>> {
    questions.iter().flat_map(|q| q.kinds.iter().map(move |(pages, cases)| beside(q, pages, cases))).collect()
}

/// A pass goes over all buffers.
fn beside<'a>(question: &'a Question<'a>, pages: &'static str, cases: &'a [Case<'a>]) -> Group<'a> {
    let mut g = Group::default();
    let lent: Rc<RefCell<Vec<Lent>>> = Rc::new(RefCell::new(vec![Lent::new(); BUFFERS]));
    let [now, before] = [NOW, BEFORE].map(|library| {
        let lent = lent.clone();
        g.side(BUFFERS, move || {
            let mut lent = lent.borrow_mut();
            cases.iter().cycle().zip(lent.iter_mut()).for_each(|(case, lent)| _ = (question.ask)(&library, case, lent));
        })
    });
    g.ratio(question.name, pages, now, before, Some(question.limit));
    g
}

//! What a question is asked with, besides its page: leniency bits, and a search limit. T is made from the page.

#[derive(Debug, Clone, Copy)]
pub struct Options {
    pub bits: u8,
    pub limit: usize,
}

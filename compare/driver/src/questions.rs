//! What is asked, and which answers each function of include/lumeviqo.h must have given by the end of a run.
use std::fmt;

use lumeviqo::header;

macro_rules! questions {
    ($($question:ident $name:literal $answers:expr,)*) => {
        #[derive(Debug, Clone, Copy, PartialEq, Eq, PartialOrd, Ord)]
        pub enum Question {
            $($question,)*
        }

        impl Question {
            pub const ALL: &[Question] = &[$(Question::$question,)*];

            fn name(self) -> &'static str {
                match self {
                    $(Question::$question => $name,)*
                }
            }

            /// Those of the header that a page can reach.
            pub fn answers(self) -> &'static [u8] {
                match self {
                    $(Question::$question => &$answers,)*
                }
            }

            /// Whether it is one of the eight functions that take a search limit.
            pub fn takes_limit(self) -> bool {
                self.answers().contains(&(header::LIMIT_OUT_OF_RANGE as u8))
            }
        }
    };
}

questions! {
    Version "version" [],
    Crc "crc" [],
    Trailer "trailer" [0, 1],
    Integrity "integrity" [0, 1, 3, 4],
    Superblock "superblock" [0, 1],
    CheckedSuperblock "checked superblock" [0, 1, 13],
    Scan "scan" [0, 1, 2],
    Replacement "replacement" [0, 1, 2, 14],
    ForeignReplacement "replacement in another page's summary" [0],
    Decoding "decoding" [0, 1, 2, 3, 4, 5, 6, 7, 20],
    SummaryDecoding "decoding from a summary" [0, 1, 2, 3, 4, 5, 6, 7, 20],
    ForeignDecoding "decoding from another page's summary" [0, 3, 4, 5, 6, 7],
    ReplacedDecoding "decoding after replacements" [0, 3, 4, 5, 6, 7],
    ManyAnchors "decoding with more than 255 anchors" [0, 3, 4, 5, 6, 7],
    Supplied "supplied bv" [0, 1, 2, 6, 7, 20],
    SummarySupplied "supplied bv from a summary" [0, 1, 2, 6, 7, 20],
    Parse "parse" [0, 1, 8, 9, 10, 11, 12, 20],
    RowCount "row count" [0, 1, 8, 9, 10, 11, 12, 20],
    Row "row" [0, 1, 8, 9, 10, 11, 12, 16, 20],
    Rows "rows" [0, 1, 8, 9, 10, 11, 12, 20],
}

impl fmt::Display for Question {
    fn fmt(&self, f: &mut fmt::Formatter<'_>) -> fmt::Result {
        f.pad(self.name())
    }
}

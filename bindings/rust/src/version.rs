//! The library that is linked must be of the header's version: one that has other layouts would be read wrongly.
use std::sync::OnceLock;

use crate::{header, sys};

/// Panics where it is of another version. The library is asked once.
pub fn check() {
    static LIBRARY: OnceLock<u32> = OnceLock::new();
    compare(*LIBRARY.get_or_init(|| unsafe { sys::lumeviqo_version() }));
}

fn compare(library: u32) {
    assert!(
        library as usize == header::VERSION,
        "liblumeviqo.a is of version {library}, include/lumeviqo.h of version {}: take both from one commit, run `tools/build library` \
         or let LUMEVIQO_LIB name the folder of the library, and build again",
        header::VERSION
    );
}

#[cfg(test)]
mod tests {
    use super::*;

    #[test]
    fn the_library_is_of_the_headers_version() {
        check();
    }

    #[test]
    #[should_panic(expected = "take both from one commit")]
    fn another_version_is_refused() {
        compare(header::VERSION as u32 + 1);
    }
}

//! Whether the library is the one that this package was written for.

use crate::ffi;
use std::sync::OnceLock;

/// The version of the library that this package was written for: the number of the last request
/// that had landed, 0 before the first. The first call asks the library for its own, and ends the
/// program where that is another.
pub const VERSION: u32 = 3;

/// Asks once, and stands before every call: with another version the lent words would be read
/// wrongly.
pub(crate) fn check() {
    static FOUND: OnceLock<u32> = OnceLock::new();
    compare(*FOUND.get_or_init(ffi::version));
}

fn compare(found: u32) {
    assert!(
        found == VERSION,
        "libworkbook.a has version {found}, and this program was written for version {VERSION}: \
         build both from one commit, the archive with `tools/library`"
    );
}

#[cfg(test)]
mod tests {
    use super::*;

    #[test]
    fn the_library_has_the_version_of_this_package() {
        assert_eq!(ffi::version(), VERSION);
        check();
    }

    #[test]
    fn the_header_has_the_version_of_this_package() {
        let header = include_str!("../../include/workbook.h");
        let line = format!("\n#define WORKBOOK_VERSION {VERSION}\n");
        assert!(header.contains(&line), "{line}");
    }

    #[test]
    fn another_version_ends_with_a_message() {
        // The one before, whose functions are lent other parts, and the one after.
        for other in [VERSION - 1, VERSION + 1] {
            let message = std::panic::catch_unwind(|| compare(other)).unwrap_err();
            let message = message.downcast_ref::<String>().unwrap();
            let found = format!("has version {other}, and");
            assert!(message.contains(&found), "{message}");
            assert!(message.contains("tools/library"), "{message}");
        }
    }
}

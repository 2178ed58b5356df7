//! Wrong versions: of the library, and of a header that does not belong to it.

use crate::boundary;
use crate::compare::version::HEADER;
use crate::compare::VersionCall;

/// What is wrong, the header and the call.
pub fn all() -> Vec<(&'static str, String, VersionCall)> {
    let header = |from: &str, to: &str| HEADER.replace(from, to);
    vec![
        ("the version is 0", HEADER.to_string(), || 0),
        ("the version is one higher", HEADER.to_string(), || boundary::version() + 1),
        ("the version is one lower", HEADER.to_string(), || boundary::version() - 1),
        ("the version has no patch", HEADER.to_string(), || boundary::version() / 1_000),
        ("the version is cut to 16 bits", HEADER.to_string(), || boundary::version() % 65_536),
        ("the header has no number", header("RIGBASEN_VERSION_NUMBER", "RIGBASEN_NUMBER"), boundary::version),
        ("the header has no text", header("RIGBASEN_VERSION ", "RIGBASEN_TEXT "), boundary::version),
        ("the header's number has a digit more", header("_VERSION_NUMBER ", "_VERSION_NUMBER 1"), boundary::version),
        ("the header's text is another", header("RIGBASEN_VERSION \"", "RIGBASEN_VERSION \"1"), boundary::version),
        (
            "the header's text has a fourth part",
            header("RIGBASEN_VERSION \"", "RIGBASEN_VERSION \"0."),
            boundary::version,
        ),
    ]
}

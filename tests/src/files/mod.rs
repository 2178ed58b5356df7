//! The region files that the repository holds, each made from a description, so that a change of the
//! format changes how a line is spelled (`generate::spelling`) and no file by hand.

pub mod describe;
pub mod examples;
pub mod mersenne;
pub mod trial;

/// A file and where it stands, from the repository's root on.
pub struct Made {
    pub path: String,
    pub bytes: Vec<u8>,
}

/// Directories of which every file is made here, or every file with an ending.
pub const HELD: [(&str, &str); 2] = [(trial::DIRECTORY, ""), (examples::DIRECTORY, ".region")];

/// Every file that is made.
pub fn all() -> Vec<Made> {
    [trial::made(), examples::made()].into_iter().flatten().collect()
}

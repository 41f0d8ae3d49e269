//! The recorded files of the vector crates: what each program reads and what it must write.

mod float;
mod join;
mod run;
mod sheet;
mod sheet_file;

pub use float::float;
pub use join::join;
pub use run::run;
pub use sheet::{sheet, Choice};
pub use sheet_file::{long, sheet_file, spoilt, weighed};

/// A program's files `stdin` and `stdout`.
pub struct Vectors {
    pub stdin: Vec<u8>,
    pub stdout: Vec<u8>,
}

impl Vectors {
    /// Whether these are the files in the folder of a crate of the repository.
    pub fn recorded(&self, crate_name: &str) -> bool {
        let folder = concat!(env!("CARGO_MANIFEST_DIR"), "/../crates");
        let same = |file: &str, bytes: &[u8]| {
            std::fs::read(format!("{folder}/{crate_name}/{file}")).is_ok_and(|read| read == bytes)
        };
        same("stdin", &self.stdin) && same("stdout", &self.stdout)
    }
}

/// The next of a row of 64-bit numbers (xorshift), from a number other than 0 on. The recorded files
/// were made with it; all else in the harness has `Random`.
fn next(state: &mut u64) -> u64 {
    *state ^= *state << 13;
    *state ^= *state >> 7;
    *state ^= *state << 17;
    *state
}

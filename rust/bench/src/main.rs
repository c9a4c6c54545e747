//! The proved operations timed beside the plain implementation, in one run, call by call in turn. Prints a table of
//! times and ratios, and how both change with the width, the depth, the kinds of gates and the outputs of a circuit.
//!
//!     bench [FOLDER]      with a folder, writes benchmark.md and growth.svg there too
mod circuits;
mod growth;
mod machine;
mod operations;
mod picture;
mod table;
mod timing;

use std::path::Path;
use std::process::ExitCode;
use std::{env, fs, io};

fn write(folder: &Path, run: &str, tables: &str, growth: &growth::Growth) -> io::Result<()> {
    fs::write(folder.join("benchmark.md"), tables)?;
    fs::write(folder.join("growth.svg"), picture::drawn(run, growth))
}

fn main() -> ExitCode {
    let growth = growth::measured();
    let run = machine::described();
    let tables = table::text(&run, &table::measured(), &growth);
    print!("{tables}");
    match env::args_os().nth(1) {
        None => ExitCode::SUCCESS,
        Some(folder) => match write(Path::new(&folder), &run, &tables, &growth) {
            Ok(()) => ExitCode::SUCCESS,
            Err(problem) => {
                eprintln!("bench: {}: {problem}", Path::new(&folder).display());
                ExitCode::FAILURE
            }
        },
    }
}

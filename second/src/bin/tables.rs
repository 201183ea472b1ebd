//! Writes the tables of the proved code into a folder, as code and as lists, and the figures of test traffic, with the paths that they have below crates/.

use second::tables::files;
use std::ffi::OsString;
use std::io;
use std::path::{Path, PathBuf};
use std::process::ExitCode;

/// EX_USAGE of sysexits.h.
const USAGE: u8 = 64;

fn folder(mut arguments: impl Iterator<Item = OsString>) -> Option<PathBuf> {
    let folder = PathBuf::from(arguments.next()?);
    (arguments.next().is_none() && folder.is_dir()).then_some(folder)
}

fn write(folder: &Path) -> io::Result<()> {
    for (path, text) in files() {
        let path = folder.join(path);
        std::fs::create_dir_all(path.parent().expect("a folder"))?;
        std::fs::write(path, text)?;
    }
    Ok(())
}

fn main() -> ExitCode {
    let Some(folder) = folder(std::env::args_os().skip(1)) else {
        eprintln!("usage: tables DIR, a folder that is there");
        return ExitCode::from(USAGE);
    };
    match write(&folder) {
        Ok(()) => ExitCode::SUCCESS,
        Err(error) => {
            eprintln!("tables: {error}");
            ExitCode::FAILURE
        }
    }
}

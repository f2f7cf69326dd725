//! A listing of all names below a folder, with a call of the system for the kind of each, as a program makes it whose library does
//! not hand on the kinds that a folder itself tells. `bench/listing` compiles it.
use std::path::Path;
use std::{env, fs, io};

/// How many files stand below the folder.
fn files(folder: &Path) -> io::Result<u64> {
    let mut found = 0;
    for entry in fs::read_dir(folder)? {
        let path = entry?.path();
        found += if fs::symlink_metadata(&path)?.is_dir() { files(&path)? } else { 1 };
    }
    Ok(found)
}

fn main() -> io::Result<()> {
    let folder = env::args().nth(1).unwrap_or_default();
    println!("{}", files(Path::new(&folder))?);
    Ok(())
}

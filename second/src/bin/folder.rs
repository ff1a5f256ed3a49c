//! `folder PATH`: writes C1 to C11 as text, as files and with their listings, and the longest chart, as they stand in
//! `charts/`.

use second::folder::files;
use std::path::Path;
use std::process::ExitCode;
use std::{env, fs};

fn main() -> ExitCode {
    let words: Vec<String> = env::args().skip(1).collect();
    let [folder] = words.as_slice() else {
        eprintln!("usage: folder PATH");
        return ExitCode::from(2);
    };
    for (name, bytes) in files() {
        if let Err(why) = fs::write(Path::new(folder).join(&name), bytes) {
            eprintln!("folder: {name}: {why}");
            return ExitCode::FAILURE;
        }
    }
    ExitCode::SUCCESS
}

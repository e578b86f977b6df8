//! The independent program at a shell.
//!
//!     independent list < FILE        what the lister prints for a saved file
//!     independent run < INPUT        what the runner prints for a saved file and instruction records
//!     independent vectors [FOLDER]   checks the independent arithmetic by the outside vectors

use independent::text;
use independent::vectors::{check, directory, Own, F_TABLES, L_TABLES};
use std::io::{Read, Write};
use std::process::ExitCode;

fn through(print: fn(&[u8]) -> String) -> ExitCode {
    let mut input = Vec::new();
    std::io::stdin().read_to_end(&mut input).expect("standard input can be read");
    std::io::stdout().write_all(print(&input).as_bytes()).expect("standard output can be written");
    ExitCode::SUCCESS
}

fn vectors(folder: Option<&String>) -> ExitCode {
    let folder = folder.map_or_else(directory, Into::into);
    let mut differ = false;
    for table in F_TABLES.into_iter().chain(L_TABLES) {
        match check(&folder, &[table], &Own) {
            Ok(found) => {
                println!("{table}: {found}");
                found.differences.iter().take(5).for_each(|difference| println!("DIFFERS: {difference}"));
                differ |= !found.differences.is_empty();
            }
            Err(problem) => {
                println!("{problem}");
                differ = true;
            }
        }
    }
    ExitCode::from(u8::from(differ))
}

fn main() -> ExitCode {
    let arguments: Vec<String> = std::env::args().skip(1).collect();
    match arguments.first().map(String::as_str) {
        Some("list") => through(text::lister),
        Some("run") => through(text::runner),
        Some("vectors") => vectors(arguments.get(1)),
        _ => {
            eprintln!("usage: independent list | run | vectors [FOLDER]");
            ExitCode::from(2)
        }
    }
}

//! Writes files of request lists with the answers that the program `survey` gives for them.

use reference::generate::vectors::vectors;
use reference::program::survey;
use std::path::Path;
use std::process::ExitCode;

const HELP: &str = "\
Usage: vectors DIRECTORY [SEED]

Writes request lists and their expected answers into DIRECTORY, which is made if it is missing:
NAME.requests is the standard input of the program `survey`, NAME.answers its standard output.
The answers of refused lists are empty. The same SEED (a number, else 1) writes the same files.";

fn main() -> ExitCode {
    let arguments: Vec<String> = std::env::args().skip(1).collect();
    let seed = arguments.get(1).map_or(Some(1), |text| text.parse().ok());
    match (arguments.first().map(String::as_str), seed) {
        (Some("--help" | "-h"), _) => {
            println!("{HELP}");
            ExitCode::SUCCESS
        }
        (Some(directory), Some(seed)) if arguments.len() <= 2 => {
            match write(Path::new(directory), seed) {
                Ok(count) => {
                    println!("{count} lists with their answers in {directory}");
                    ExitCode::SUCCESS
                }
                Err(error) => fail(&format!("{directory}: {error}")),
            }
        }
        _ => fail(HELP),
    }
}

fn fail(words: &str) -> ExitCode {
    eprintln!("{words}");
    ExitCode::FAILURE
}

/// Writes two files for each list and gives the number of lists.
fn write(directory: &Path, seed: u64) -> std::io::Result<usize> {
    std::fs::create_dir_all(directory)?;
    let vectors = vectors(seed);
    for vector in &vectors {
        std::fs::write(directory.join(format!("{}.requests", vector.name)), &vector.requests)?;
        let answers = survey(&vector.requests);
        std::fs::write(directory.join(format!("{}.answers", vector.name)), answers)?;
    }
    Ok(vectors.len())
}

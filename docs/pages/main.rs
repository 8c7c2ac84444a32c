//! Prints the pages of docs/ that are made from the sources, and checks those that quote them. Run from the project's root:
//!   pages statements | believed | outside | index [FOLDER OF THE SOURCE DOCUMENTS]

mod answers;
mod antt;
mod believed;
mod closure;
mod code;
mod hash;
mod index;
mod legend;
mod names;
mod prose;
mod repo;
mod statements;
mod tokens;
mod words;

use std::path::Path;
use std::process::ExitCode;

/// The text of a page.
fn page(name: &str) -> Result<String, String> {
    std::fs::read_to_string(name).map_err(|e| format!("{name}: {e}"))
}

fn run(command: &str, documents: &str) -> Result<String, String> {
    let root = Path::new(".");
    let repo = repo::Repo::read(root)?;
    if command == "index" {
        let (index, amendments) = (page("docs/INDEX.md")?, page("docs/AMENDMENTS.md")?);
        let (sources, protocol) = (page("docs/SOURCES.md")?, page("second/PROTOCOL.md")?);
        let pages = [&index[..], &amendments, &sources, &protocol];
        let checked = index::check(&repo, root, pages, Path::new(documents));
        return checked.map_err(|faults| faults.join("\n"));
    }
    let text = page("docs/ANSWERS.md")?;
    let cited = answers::read(&repo, root, &text).map_err(|faults| faults.join("\n"))?;
    match command {
        "statements" => statements::page(&repo, &cited),
        "believed" => believed::page(&repo, &cited),
        "outside" => believed::outside(&repo, &cited),
        _ => Err("pages statements | believed | outside | index [FOLDER]".into()),
    }
}

fn main() -> ExitCode {
    let command = std::env::args().nth(1).unwrap_or_default();
    let documents = std::env::args().nth(2).unwrap_or("../shared/documents".into());
    match run(&command, &documents) {
        Ok(page) => {
            print!("{page}");
            ExitCode::SUCCESS
        }
        Err(faults) => {
            eprintln!("{faults}");
            ExitCode::FAILURE
        }
    }
}

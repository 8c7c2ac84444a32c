//! The second program: a HAPCAN bootloader written from the documents alone, to be compared with
//! the proved one. See README.md and PROTOCOL.md.

mod apply_file;
mod apply_recipes;
mod before_a4;
mod changed_by_a4;
mod coverage;
mod coverage_rows;
mod difference_coverage;
mod difference_drafts;
mod difference_file;
mod difference_files;
mod difference_looks;
mod difference_recipes;
mod difference_rows;
#[cfg(test)]
mod difference_samples;
mod difference_stream;
mod differences;
mod digest;
mod event;
mod explain;
mod frames;
mod generate;
mod hex;
mod hex_coverage;
mod hex_damage;
mod hex_faults;
mod hex_file;
mod hex_files;
mod hex_good;
mod hex_good_rows;
mod hex_line_rows;
#[cfg(test)]
mod hex_samples;
mod hex_stream;
mod hex_texts;
mod memory;
mod node;
mod node_record;
mod noisy_recipes;
mod numbers;
mod piece_coverage;
#[cfg(test)]
mod piece_samples;
mod random;
mod read_hex;
mod recipe;
mod recipe_coverage;
mod recipe_files;
mod recipe_stream;
mod recipes;
mod recipes_in_pieces;
mod row_counts;
#[cfg(test)]
mod samples;
mod session;
mod start_coverage;
#[cfg(test)]
mod start_samples;
mod uart_coverage;
mod way_coverage;
#[cfg(test)]
mod ways_samples;
mod write_differences;

use before_a4::Rule;
use generate::Kind;
use node::Way;
use std::io::{self, BufWriter, Read, Write};
use std::process::ExitCode;

const USAGE: &str = "second generate SEED SESSIONS EVENTS FULL > stream
second pieces SEED SESSIONS EVENTS FULL > stream
second ways SEED SESSIONS EVENTS FULL > stream
second starts SEED SESSIONS EVENTS FULL > stream
second ask old|new > stream
second answer < stream
second answer-before-a4 < stream
second changed-by-a4 < stream
second coverage < stream
second explain N < stream
second recipes SEED COUNT > stream
second recipes-in-pieces SEED COUNT > stream
second noisy-recipes SEED COUNT > stream
second ask-recipes old|new > stream
second apply-recipes < stream
second recipe-coverage < stream
second apply FILE
second recipe-files SEED COUNT DIR
second hex-texts SEED COUNT > stream
second read-hex < stream
second hex-coverage < stream
second hex FILE MODULE GROUP > recipe
second hex-files SEED COUNT DIR
second difference-recipes SEED COUNT > stream
second write-differences < stream
second difference-coverage < stream
second differences RECIPE IMAGE [OUT]
second difference-files SEED COUNT DIR";

/// All of standard input.
fn input() -> io::Result<Vec<u8>> {
    let mut bytes = Vec::new();
    io::stdin().lock().read_to_end(&mut bytes)?;
    Ok(bytes)
}

/// The trouble of a table with rows that were never reached.
fn complaint(missing: Vec<String>) -> Option<String> {
    (!missing.is_empty()).then(|| format!("never reached: {}", missing.join("; ")))
}

/// The way of a name.
fn named(name: &str) -> Way {
    match name {
        "old" => Way::Old,
        _ => Way::New,
    }
}

/// Runs a command; gives a message where the answer is no.
fn run(arguments: &[&str], out: &mut impl Write) -> io::Result<Option<String>> {
    let number = |text: &str| -> io::Result<u64> {
        let wrong = || io::Error::other(format!("not a number that fits: {text}"));
        text.parse().map_err(|_| wrong())
    };
    match arguments {
        [command @ ("generate" | "pieces" | "ways" | "starts"), seed, sessions, events, full] => {
            let full = number(full)?.min(65_535) as u16;
            let (sessions, events) = (number(sessions)? as u32, number(events)?);
            let kind = match *command {
                "generate" => Kind::Bytes,
                "pieces" => Kind::Pieces,
                "ways" => Kind::Ways,
                _ => Kind::Starts,
            };
            generate::generate(kind, number(seed)?, sessions, events, full, out)?;
            Ok(None)
        }
        ["ask", name @ ("old" | "new")] => {
            let way = node_record::way_byte(named(name));
            out.write_all(&event::Event::Meant(way).write()).map(|_| None)
        }
        ["ask-recipes", name @ ("old" | "new")] => {
            recipe_stream::write_meant(named(name), out).map(|_| None)
        }
        ["answer"] => session::answer_stream(&input()?, Rule::Now, out).map(|_| None),
        ["answer-before-a4"] => {
            session::answer_stream(&input()?, Rule::BeforeA4, out).map(|_| None)
        }
        ["changed-by-a4"] => changed_by_a4::changed_by_a4(&input()?, out),
        ["coverage"] => Ok(complaint(coverage::coverage(&input()?, out)?)),
        ["explain", event] => match explain::explain(&input()?, number(event)?) {
            Some(text) => writeln!(out, "{text}").map(|_| None),
            None => Ok(Some("the stream has fewer events".to_string())),
        },
        ["recipes", seed, count] => {
            recipes::recipes(number(seed)?, number(count)? as usize, out).map(|_| None)
        }
        ["recipes-in-pieces", seed, count] => {
            let (seed, count) = (number(seed)?, number(count)? as usize);
            recipes_in_pieces::recipes_in_pieces(seed, count, out).map(|_| None)
        }
        ["noisy-recipes", seed, count] => {
            let (seed, count) = (number(seed)?, number(count)? as usize);
            noisy_recipes::noisy_recipes(seed, count, out).map(|_| None)
        }
        ["apply-recipes"] => apply_recipes::apply_recipes(&input()?, out),
        ["apply", file] => {
            out.write_all(apply_file::printed(&std::fs::read(file)?).as_bytes()).map(|_| None)
        }
        ["recipe-files", seed, count, folder] => {
            let (seed, count) = (number(seed)?, number(count)? as usize);
            recipe_files::recipe_files(seed, count, folder).map(|_| None)
        }
        ["recipe-coverage"] => Ok(complaint(recipe_coverage::recipe_coverage(&input()?, out)?)),
        ["hex-texts", seed, count] => {
            hex_texts::hex_texts(number(seed)?, number(count)? as usize, out).map(|_| None)
        }
        ["read-hex"] => read_hex::read_hex(&input()?, out),
        ["hex-coverage"] => Ok(complaint(hex_coverage::hex_coverage(&input()?, out)?)),
        ["hex", file, module, group] => {
            let byte = |text: &str| {
                let wrong = || io::Error::other(format!("not a number of one byte: {text}"));
                hex_file::number(text).ok_or_else(wrong)
            };
            let (module, group) = (byte(module)?, byte(group)?);
            match hex_file::recipe(&hex_file::text(file)?, module, group) {
                Ok(recipe) => out.write_all(&recipe).map(|_| None),
                Err(line) => Ok(Some(line)),
            }
        }
        ["hex-files", seed, count, folder] => {
            let (seed, count) = (number(seed)?, number(count)? as usize);
            hex_files::hex_files(seed, count, folder).map(|_| None)
        }
        ["difference-recipes", seed, count] => {
            let (seed, count) = (number(seed)?, number(count)? as usize);
            difference_recipes::difference_recipes(seed, count, out).map(|_| None)
        }
        ["write-differences"] => write_differences::write_differences(&input()?, out),
        ["difference-coverage"] => {
            Ok(complaint(difference_coverage::difference_coverage(&input()?, out)?))
        }
        ["differences", recipe, image, to @ ..] if to.len() < 2 => {
            let (recipe, image) =
                (difference_file::recipe(recipe)?, difference_file::image(image)?);
            let (shorter, erases) = match difference_file::shorter(&recipe, &image) {
                Ok(made) => made,
                Err(line) => return Ok(Some(line)),
            };
            match to {
                [file] => std::fs::write(file, shorter)?,
                _ => out.write_all(&shorter).and_then(|_| out.flush())?,
            }
            eprintln!("{erases} erases");
            Ok(None)
        }
        ["difference-files", seed, count, folder] => {
            let (seed, count) = (number(seed)?, number(count)? as usize);
            difference_files::difference_files(seed, count, folder).map(|_| None)
        }
        _ => Ok(Some(USAGE.to_string())),
    }
}

/// Exit status 1 with a message on standard error where the answer is no.
fn main() -> ExitCode {
    let arguments: Vec<String> = std::env::args().skip(1).collect();
    let arguments: Vec<&str> = arguments.iter().map(|argument| &argument[..]).collect();
    let mut out = BufWriter::new(io::stdout().lock());
    let result = run(&arguments, &mut out).and_then(|message| out.flush().map(|_| message));
    match result {
        Ok(None) => ExitCode::SUCCESS,
        Ok(Some(message)) => {
            eprintln!("{message}");
            ExitCode::FAILURE
        }
        Err(error) => {
            eprintln!("{error}");
            ExitCode::FAILURE
        }
    }
}

//! Makes the recipes of a stream shorter and prints a line for each, and has a second look at them.

use crate::difference_looks::{wrong_recipe, wrong_refusal};
use crate::difference_stream::{read, DifferenceTrial};
use crate::differences;
use crate::digest::Digest;
use std::io::{self, Write};

/// What the lent output is filled with.
const FILL: u8 = 0xEE;

/// Makes one recipe shorter; gives its line without the number in front, and what is wrong.
fn answer(trial: &DifferenceTrial) -> (String, Option<String>) {
    let image = trial.image();
    let mut output = vec![FILL; trial.room];
    let result = differences::write(&trial.recipe, &image, &mut output);
    let (number, value, erases, written, wrong) = match result {
        Ok(told) => {
            let wrong = wrong_recipe(&trial.recipe, &image, &output[..told.length], told);
            (0, told.length, told.erases, told.length, wrong)
        }
        Err(refusal) => {
            let wrong = wrong_refusal(&trial.recipe, &image, trial.room, refusal);
            (refusal.number, refusal.place, 0, 0, wrong)
        }
    };
    let untouched = output[written..].iter().all(|&byte| byte == FILL);
    let touched = || "the output is touched behind the recipe or by a refusal".to_string();
    let digest = Digest::of(&output);
    let line = format!("number {number} value {value} erases {erases} output {digest}");
    (line, wrong.or_else(|| (!untouched).then(touched)))
}

/// Makes all recipes of a stream shorter and prints a line for each; gives the first thing that is
/// wrong.
pub fn write_differences(stream: &[u8], out: &mut impl Write) -> io::Result<Option<String>> {
    let mut first = None;
    for (index, trial) in read(stream).iter().enumerate() {
        let (line, wrong) = answer(trial);
        writeln!(out, "differences {} {line}", index + 1)?;
        if first.is_none() {
            first = wrong.map(|what| format!("differences {}: {what}", index + 1));
        }
    }
    Ok(first)
}

//! How often each wanted row is reached, as a table.

use std::collections::HashMap;
use std::io::{self, Write};

/// Prints how many of what was looked at, and how often each wanted row is among those reached; gives the rows that never are.
pub fn tell(
    looked_at: usize,
    what: &str,
    reached: impl Iterator<Item = String>,
    wanted: Vec<String>,
    out: &mut impl Write,
) -> io::Result<Vec<String>> {
    let mut counts: HashMap<String, u64> = HashMap::new();
    for row in reached {
        *counts.entry(row).or_default() += 1;
    }
    writeln!(out, "{looked_at:>9} {what}")?;
    let mut missing = Vec::new();
    for row in wanted {
        let count = counts.get(&row).copied().unwrap_or(0);
        writeln!(out, "{count:>9} {row}")?;
        if count == 0 {
            missing.push(row);
        }
    }
    Ok(missing)
}

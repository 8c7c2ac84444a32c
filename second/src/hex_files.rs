//! Makes HEX files for the command that reads one: those at its limits, then good and damaged ones.

use crate::hex_file::MOST_BYTES;
use crate::hex_good::full;
use crate::hex_stream::read;
use crate::hex_texts::hex_texts;
use crate::random::Random;
use std::io;
use std::path::Path;

const EMPTY_RECORD: &[u8] = b":0000000000\n";
const END_RECORD: &[u8] = b":00000001FF";

/// A text of so many bytes: these lines, records without data, and this last line. A CR before an
/// LF is one byte more.
fn of_length(lines: &[u8], last: &[u8], length: usize) -> Vec<u8> {
    let left = length - lines.len() - last.len();
    let (records, more) = (left / EMPTY_RECORD.len(), left % EMPTY_RECORD.len());
    let mut text = lines.to_vec();
    for index in 0..records {
        text.extend(EMPTY_RECORD);
        if index < more {
            text.insert(text.len() - 1, b'\r');
        }
    }
    text.extend(last);
    text
}

/// A text with its last line, the end record, taken away.
fn without_end(mut text: Vec<u8>) -> Vec<u8> {
    let end = text.iter().rposition(|&byte| byte == b':').expect("a record");
    text.truncate(end);
    text
}

/// The files at the limits: nothing, the end record alone, all legal cells; then texts of as many
/// bytes as there may be, accepted and refused at lines above 65,535, and of one byte more.
fn limits(random: &mut Random) -> Vec<Vec<u8>> {
    let most = of_length(b"", END_RECORD, MOST_BYTES);
    let cells = (1..=16)
        .map(|bytes| without_end(full(random, bytes).written(random)))
        .find(|text| text.len() + END_RECORD.len() <= MOST_BYTES)
        .expect("all cells in records of 16 bytes fit");
    let mut bad_sum = most.clone();
    bad_sum[MOST_BYTES - 1] = b'E';
    let early_end = [END_RECORD, b"\n", END_RECORD].concat();
    vec![
        vec![],
        END_RECORD.to_vec(),
        full(random, 16).written(random),
        full(random, 255).written(random),
        most.clone(),
        of_length(b"", END_RECORD, MOST_BYTES + 1),
        of_length(&cells, END_RECORD, MOST_BYTES),
        bad_sum,
        of_length(b"", b"", MOST_BYTES),
        of_length(b"", &early_end, MOST_BYTES),
        [&most[..], b"\n"].concat(),
        vec![b'0'; MOST_BYTES],
        vec![b'0'; MOST_BYTES + 1],
        vec![b'\n'; MOST_BYTES],
        [b":", &vec![b'0'; MOST_BYTES - 1][..]].concat(),
    ]
}

/// Writes so many files into the folder: those at the limits, then the texts of a stream.
pub fn hex_files(seed: u64, count: usize, folder: &str) -> io::Result<()> {
    let mut files = limits(&mut Random::new(seed));
    let mut stream = Vec::new();
    hex_texts(seed, count.saturating_sub(files.len()), &mut stream)?;
    files.extend(read(&stream).into_iter().map(|trial| trial.text));
    files.truncate(count);
    for (index, file) in files.iter().enumerate() {
        std::fs::write(Path::new(folder).join(format!("{index:04}.hex")), file)?;
    }
    Ok(())
}

#[cfg(test)]
mod tests {
    use super::*;
    use crate::hex_file::recipe;

    /// The files at the limits give what they are there for.
    #[test]
    fn at_the_limits() {
        let files = limits(&mut Random::new(1));
        let told = |index: usize| recipe(&files[index], 0x05, 0x0A).map(|recipe| recipe.len());
        let refused = |line: &str| Err(line.to_string());
        assert_eq!(told(0), refused("35 1"));
        assert_eq!(told(1), Ok(4));
        assert_eq!((told(2), told(3)), (Ok(66_820), Ok(66_820)));
        assert_eq!((files[4].len(), told(4)), (MOST_BYTES, Ok(4)));
        assert_eq!((files[5].len(), told(5)), (MOST_BYTES + 1, refused("long")));
        assert_eq!((files[6].len(), told(6)), (MOST_BYTES, Ok(66_820)));
        assert_eq!((files[7].len(), told(7)), (MOST_BYTES, refused("31 87381")));
        assert_eq!((files[8].len(), told(8)), (MOST_BYTES, refused("35 87382")));
        assert_eq!((files[9].len(), told(9)), (MOST_BYTES, refused("35 87381")));
        assert_eq!((files[10].len(), told(10)), (MOST_BYTES + 1, refused("long")));
        assert_eq!((told(11), told(12)), (refused("30 1"), refused("long")));
        assert_eq!((told(13), told(14)), (refused("30 1"), refused("30 1")));
    }
}

//! The file of farms beside the vectors: a farm a line, with what a solve of it makes.
//! name | records | ideals | moves | 1 if it ended | 1 if a search was cut | entries of all searches | counts | N:counts after N moves;..

use crate::limits::RECORD;
use crate::words::Words;

/// The file that is read if none is named.
pub const FILE: &str = concat!(env!("CARGO_MANIFEST_DIR"), "/../../shared/oracle/farms32.txt");

pub struct Farm {
    pub name: String,
    pub records: Vec<u16>,
    pub ideals: Vec<f64>,
    pub moves: u32,
    /// Whether any search of the solve was cut.
    pub cut: bool,
    /// Entries of all searches of the solve.
    pub entries: u64,
    /// Counts on the way; of a farm of the file, the latest that it has.
    pub underway: Vec<u32>,
}

pub fn read(path: &str) -> Result<Vec<Farm>, String> {
    let text = std::fs::read_to_string(path).map_err(|e| format!("{path}: {e}"))?;
    if !text.ends_with('\n') {
        return Err(format!("{path}: cut off: the last line has no end"));
    }
    (1..).zip(text.lines()).map(|(number, line)| farm(line).map_err(|problem| format!("{path}, line {number}: {problem}"))).collect()
}

fn farm(line: &str) -> Result<Farm, String> {
    let fields: Vec<&str> = line.split('|').collect();
    let [name, records, ideals, moves, ended, cut, entries, _, underway] = fields[..] else {
        return Err(format!("{} fields and not nine", fields.len()));
    };
    if ended != "1" {
        return Err(format!("the solve of {name} is not at its end"));
    }
    let latest = underway.split(';').next_back().and_then(|text| text.split_once(':')).ok_or("no counts on the way")?.1;
    Ok(Farm {
        name: name.to_string(),
        records: whole_records(whole(records, |words| words.places("places of records"))?)?,
        ideals: whole(ideals, |words| words.floats("ideals"))?,
        moves: whole(moves, |words| words.number("the moves"))?,
        cut: cut == "1",
        entries: entries.parse().map_err(|_| format!("`{entries}` is no number of entries"))?,
        underway: whole(latest, |words| words.numbers("counts"))?,
    })
}

/// Records of another length are those of another version.
fn whole_records(records: Vec<u16>) -> Result<Vec<u16>, String> {
    if records.len().is_multiple_of(RECORD) {
        Ok(records)
    } else {
        Err(format!("{} numbers are no whole records of {RECORD}", records.len()))
    }
}

/// All words of a field.
fn whole<T>(field: &str, read: impl FnOnce(&mut Words) -> Result<T, String>) -> Result<T, String> {
    let mut words = Words::new(field);
    let value = read(&mut words)?;
    words.end()?;
    Ok(value)
}

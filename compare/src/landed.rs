//! Which vectors hold today. Those of 02 say which of its items they need (`from`) and which end them (`until`); a list by item says of
//! which vectors of 01 the answer changed with it (`changed01.json` of the vectors of 02).

use crate::json::{parse, Json};
use std::collections::HashSet;
use std::fmt;
use std::fs;

/// The items of 02 that this library has; the others have not landed. A request adds its own here: then the vectors that need it are run,
/// and those that it changed are passed over.
pub const LANDED: [i64; 6] = [2, 5, 7, 9, 12, 13];

/// The ids of vectors whose answer a landed item changed.
#[derive(Default)]
pub struct Changed {
    ids: HashSet<String>,
}

/// How many vectors are passed over: changed ones, and those that do not apply by their own items.
#[derive(Default)]
pub struct PassedOver {
    pub changed: usize,
    pub not_applying: usize,
}

/// What a tool is given: files of vectors, and lists of changed ones, whose names end in `.json`, anywhere among them.
pub fn files(arguments: impl Iterator<Item = String>) -> Result<(Vec<String>, Changed), String> {
    let (lists, files): (Vec<String>, Vec<String>) = arguments.partition(|path| path.ends_with(".json"));
    let mut changed = Changed::default();
    for path in lists {
        let told = |problem: &dyn fmt::Display| format!("{path}: {problem}");
        let text = fs::read_to_string(&path).map_err(|e| told(&e))?;
        changed.add(&text).map_err(|problem| told(&problem))?;
    }
    Ok((files, changed))
}

impl Changed {
    /// The ids that a list has under items that have landed: `{"item 12": [..], ..}`.
    pub fn add(&mut self, text: &str) -> Result<(), String> {
        let Json::Object(items) = parse(text)? else {
            return Err("a list of changed vectors has them by item".to_string());
        };
        for (name, ids) in items {
            let item = name.strip_prefix("item ").and_then(|number| number.parse().ok());
            let item: i64 = item.ok_or_else(|| format!("`{name}` is no item of 02"))?;
            for id in ids.list()? {
                let id = id.text()?;
                if LANDED.contains(&item) {
                    self.ids.insert(id.to_string());
                }
            }
        }
        Ok(())
    }

    /// Whether the vector of a line holds today. If not it is counted.
    pub fn holds(&self, line: &str, passed_over: &mut PassedOver) -> Result<bool, String> {
        let vector = parse(line)?;
        if matches!(vector.field("id"), Ok(Json::Text(id)) if self.ids.contains(id)) {
            passed_over.changed += 1;
            return Ok(false);
        }
        let applies = applies(&vector)?;
        passed_over.not_applying += usize::from(!applies);
        Ok(applies)
    }
}

/// Whether all items that a vector needs have landed and none that ends it; one that names none applies.
pub fn applies(vector: &Json) -> Result<bool, String> {
    let needed = items(vector, "from")?.iter().all(|item| LANDED.contains(item));
    Ok(needed && !items(vector, "until")?.iter().any(|item| LANDED.contains(item)))
}

fn items(vector: &Json, name: &str) -> Result<Vec<i64>, String> {
    match vector.field(name) {
        Ok(items) => items.list()?.iter().map(Json::number).collect(),
        Err(_) => Ok(Vec::new()),
    }
}

/// Nothing where none is passed over.
impl fmt::Display for PassedOver {
    fn fmt(&self, f: &mut fmt::Formatter) -> fmt::Result {
        for (number, what) in [(self.changed, "changed by 02"), (self.not_applying, "do not apply by their items of 02")] {
            if number > 0 {
                write!(f, "; {number} {what}")?;
            }
        }
        Ok(())
    }
}

//! The names that a text gives to stops and cars. A sheet has no place for them: they stand in the text and in what is printed or drawn from it.

use std::collections::BTreeMap;

/// The field of a line that holds one.
pub const NAME: &str = "name";

/// The most characters of a name.
const MOST: usize = 64;

/// The names by id.
#[derive(Clone, Debug, Default, PartialEq, Eq)]
pub struct Names {
    pub stops: BTreeMap<u32, String>,
    pub cars: BTreeMap<u32, String>,
}

impl Names {
    /// The name of a record by its kind and id.
    pub fn of(&self, kind: usize, id: u32) -> Option<&str> {
        let names = match kind {
            2 => &self.stops,
            4 => &self.cars,
            _ => return None,
        };
        names.get(&id).map(String::as_str)
    }

    /// Of several records with one id the first one keeps its name.
    pub fn give(&mut self, kind: usize, id: Option<u32>, name: &str) {
        let names = match kind {
            2 => &mut self.stops,
            _ => &mut self.cars,
        };
        if let Some(id) = id {
            names.entry(id).or_insert_with(|| name.into());
        }
    }
}

/// What is wrong with a name.
pub fn check(name: &str) -> Result<(), String> {
    match name.chars().count() {
        _ if name.contains(char::is_control) => {
            Err("expected printed characters, found another one".into())
        }
        0 => Err("expected a name, found none; leave name= out where there is none".into()),
        1..=MOST => Ok(()),
        long => Err(format!("expected at most {MOST} characters, found {long}")),
    }
}

//! The words of a command line that stand for a car and a stop.

use std::collections::BTreeMap;

use crate::cut::Cut;
use crate::fields::KINDS;
use crate::near::did_you_mean;
use crate::source::Source;
use crate::value::whole;

/// The ids that two words stand for, each an id or a name of the text.
pub fn ids(source: &Source, car: &str, stop: &str) -> Result<(u32, u32), String> {
    let cut = Cut::new(&source.bytes);
    let id = |kind: usize, word: &str, names: &BTreeMap<u32, String>| {
        let number = whole(word, 32);
        // An id that there is comes before a name of digits.
        match number.filter(|id| cut.ids(kind).contains(id)) {
            Some(id) => Ok(id as u32),
            None => named(KINDS[kind], word, names, source.places.is_some()),
        }
    };
    let names = &source.names;
    Ok((id(4, car, &names.cars)?, id(2, stop, &names.stops)?))
}

/// The id with this name; a number that is no name is an id without a record.
fn named(
    noun: &str,
    word: &str,
    names: &BTreeMap<u32, String>,
    is_text: bool,
) -> Result<u32, String> {
    let named = names.iter().filter(|(_, name)| *name == word);
    let named: Vec<u32> = named.map(|(id, _)| *id).collect();
    let known: Vec<&str> = names.values().map(String::as_str).collect();
    match (named.as_slice(), whole(word, 32), is_text) {
        ([id], ..) => Ok(*id),
        ([], Some(id), _) => Ok(id as u32),
        ([], None, true) => Err(format!(
            "\"{word}\": expected a {noun}'s id, or its name in the text{}",
            did_you_mean(word, &known)
        )),
        ([], None, false) => Err(format!(
            "\"{word}\": expected a {noun}'s id; a sheet has no names, but the text that it is written from can"
        )),
        (ids, ..) => {
            let ids: Vec<String> = ids.iter().map(u32::to_string).collect();
            Err(format!(
                "\"{word}\" is the name of several {noun}s: name one by its id, {}",
                ids.join(", ")
            ))
        }
    }
}

//! The name that a misspelt one was meant to be.

/// `; did you mean NAME?` where one of the names is close, else nothing.
pub fn did_you_mean(written: &str, names: &[&str]) -> String {
    match nearest(written, names) {
        Some(name) => format!("; did you mean {name}?"),
        None => String::new(),
    }
}

/// The first of the nearest names, where at most a third of the letters are wrong.
pub fn nearest<'n>(written: &str, names: &[&'n str]) -> Option<&'n str> {
    let letters = |text: &str| -> Vec<char> { text.to_lowercase().chars().collect() };
    let written = letters(written);
    // No name is that long.
    if written.len() > 40 {
        return None;
    }
    let by_steps = names
        .iter()
        .map(|name| (steps(&written, &letters(name)), *name));
    let (steps, name) = by_steps.min_by_key(|(steps, _)| *steps)?;
    (3 * steps <= written.len()).then_some(name)
}

/// How many letters are to be put in, left out, changed, or swapped with the next one.
fn steps(from: &[char], to: &[char]) -> usize {
    let mut rows: Vec<Vec<usize>> = vec![(0..=to.len()).collect()];
    for i in 1..=from.len() {
        let mut row = vec![i];
        for j in 1..=to.len() {
            let is_other = usize::from(from[i - 1] != to[j - 1]);
            let changed = rows[i - 1][j - 1] + is_other;
            let mut least = changed.min(rows[i - 1][j] + 1).min(row[j - 1] + 1);
            let is_swapped = i > 1 && j > 1 && from[i - 1] == to[j - 2] && from[i - 2] == to[j - 1];
            if is_swapped {
                least = least.min(rows[i - 2][j - 2] + 1);
            }
            row.push(least);
        }
        rows.push(row);
    }
    rows[from.len()][to.len()]
}

#[cfg(test)]
mod tests {
    use super::*;

    #[test]
    fn close_names_alone() {
        let names = ["going_up", "going_down", "stop", "id", "eta"];
        for (written, name) in [
            ("going_donw", Some("going_down")),
            ("goingup", Some("going_up")),
            ("stpo", Some("stop")),
            ("Stop", Some("stop")),
            ("ids", Some("id")),
            ("ETA", Some("eta")),
            ("it", None),
            ("age", None),
            ("position", None),
            ("", None),
        ] {
            assert_eq!(nearest(written, &names), name, "{written}");
        }
        assert_eq!(nearest(&"stop".repeat(11), &names), None);
        assert_eq!(did_you_mean("stopp", &names), "; did you mean stop?");
        assert_eq!(did_you_mean("floor", &names), "");
    }
}

//! Many files at once: which ones, the work on all cores in their order, and how far it is.

use std::collections::BTreeMap;
use std::io::Write;
use std::path::{Path, PathBuf};
use std::sync::atomic::{AtomicUsize, Ordering};
use std::sync::mpsc;
use std::time::{Duration, Instant};

use crate::files;
use crate::numbers::grouped;

/// The endings of the files that are taken from a folder.
pub const ENDINGS: [&str; 2] = ["sheet", "txt"];

/// A file that is named, alone or by its folder, or why a name stands for none.
pub type Named = Result<PathBuf, (PathBuf, String)>;

/// The files that words name, in this order; of a folder those with these endings, in it and below it, by the bytes of their names.
pub fn files(words: &[PathBuf], endings: &[&str]) -> Vec<Named> {
    let of = |word: &PathBuf| match word.is_dir() {
        true => in_folder(word, endings),
        false => vec![Ok(word.clone())],
    };
    words.iter().flat_map(of).collect()
}

fn in_folder(folder: &Path, endings: &[&str]) -> Vec<Named> {
    let mut found = Vec::new();
    descend(folder, endings, &mut found);
    let path = |named: &Named| match named {
        Ok(path) | Err((path, _)) => path.clone().into_os_string().into_encoded_bytes(),
    };
    found.sort_by_cached_key(path);
    if found.is_empty() {
        let endings: Vec<String> = endings.iter().map(|e| format!(".{e}")).collect();
        let none = format!("holds no file that ends in {}", endings.join(" or "));
        found.push(Err((folder.into(), none)));
    }
    found
}

/// A link to a folder is not followed, so that there is an end.
fn descend(folder: &Path, endings: &[&str], found: &mut Vec<Named>) {
    let unread = |error| Err((folder.to_path_buf(), files::why(&error)));
    let entries = match std::fs::read_dir(folder) {
        Ok(entries) => entries,
        Err(error) => return found.push(unread(error)),
    };
    for entry in entries {
        let path = match entry {
            Ok(entry) => entry.path(),
            Err(error) => {
                found.push(unread(error));
                continue;
            }
        };
        if path.is_dir() {
            if !path.is_symlink() {
                descend(&path, endings, found);
            }
        } else if has_ending(&path, endings) {
            found.push(Ok(path));
        }
    }
}

fn has_ending(path: &Path, endings: &[&str]) -> bool {
    let ending = path.extension().map(|e| e.to_string_lossy().to_lowercase());
    ending.is_some_and(|ending| endings.contains(&&*ending))
}

/// Works on items with so many workers, and hands what they make on in the order of the items, until `each` wants no more.
pub fn work<T: Sync, R: Send>(
    items: &[T],
    workers: usize,
    make: impl Fn(&T) -> R + Sync,
    mut each: impl FnMut(R) -> bool,
) {
    let next = AtomicUsize::new(0);
    let (send, made) = mpsc::channel();
    std::thread::scope(|scope| {
        for _ in 0..workers.clamp(1, items.len().max(1)) {
            let (send, next, make) = (send.clone(), &next, &make);
            scope.spawn(move || {
                loop {
                    let k = next.fetch_add(1, Ordering::Relaxed);
                    let Some(item) = items.get(k) else { break };
                    if send.send((k, make(item))).is_err() {
                        break;
                    }
                }
            });
        }
        drop(send);
        let (mut early, mut due) = (BTreeMap::new(), 0);
        for (k, result) in made {
            early.insert(k, result);
            while let Some(result) = early.remove(&due) {
                due += 1;
                if !each(result) {
                    next.store(items.len(), Ordering::Relaxed);
                    return;
                }
            }
        }
    });
}

/// How far the work is, in the last line of a terminal.
pub struct Progress {
    all: usize,
    done: usize,
    is_shown: bool,
    /// It stands on the terminal.
    is_there: bool,
    /// When it was drawn, or when the work began.
    drawn: Instant,
}

/// The bar is drawn after this time, and again after it.
const PAUSE: Duration = Duration::from_millis(100);
const WIDTH: usize = 30;

impl Progress {
    pub fn new(all: usize, is_shown: bool) -> Self {
        Self {
            all,
            done: 0,
            is_shown,
            is_there: false,
            drawn: Instant::now(),
        }
    }

    /// One more is done.
    pub fn step(&mut self) {
        self.done += 1;
        if self.is_shown && self.drawn.elapsed() >= PAUSE {
            (self.is_there, self.drawn) = (true, Instant::now());
            let _ = write!(std::io::stderr(), "\r{}", bar(self.done, self.all));
        }
    }

    /// Takes the bar away, for a line or at the end.
    pub fn clear(&mut self) {
        if self.is_there {
            let _ = write!(std::io::stderr(), "\r\x1b[K");
        }
        self.is_there = false;
    }
}

/// `[#####.....] 50 of 100`.
fn bar(done: usize, all: usize) -> String {
    let full = WIDTH * done / all.max(1);
    let (hashes, dots) = ("#".repeat(full), ".".repeat(WIDTH - full.min(WIDTH)));
    let (done, all) = (grouped(done as u64), grouped(all as u64));
    format!("[{hashes}{dots}] {done} of {all}")
}

#[cfg(test)]
mod tests {
    use super::*;

    #[test]
    fn results_stand_in_the_order_of_the_items() {
        let items: Vec<u64> = (0..300).collect();
        for workers in [1, 2, 7] {
            let mut made = Vec::new();
            let make = |k: &u64| {
                // Later ones are done first.
                std::thread::sleep(Duration::from_micros(300 - k));
                *k
            };
            work(&items, workers, make, |k| {
                made.push(k);
                true
            });
            assert_eq!(made, items);
        }
    }

    #[test]
    fn the_work_ends_where_no_more_is_wanted() {
        let items: Vec<usize> = (0..100_000).collect();
        let made = AtomicUsize::new(0);
        let mut taken = 0;
        let make = |_: &usize| {
            made.fetch_add(1, Ordering::Relaxed);
            std::thread::sleep(Duration::from_micros(50));
        };
        work(&items, 3, make, |()| {
            taken += 1;
            taken < 10
        });
        assert_eq!(taken, 10);
        assert!(made.into_inner() < items.len());
    }

    #[test]
    fn bars() {
        assert_eq!(bar(0, 0), format!("[{}] 0 of 0", ".".repeat(30)));
        let half = format!("[{}{}] 1,500 of 3,000", "#".repeat(15), ".".repeat(15));
        assert_eq!(bar(1_500, 3_000), half);
        assert_eq!(bar(7, 7), format!("[{}] 7 of 7", "#".repeat(30)));
    }
}

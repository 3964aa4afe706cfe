//! Prints the pass over one sheet as the program passprint does: `cargo run --example pass SHEET`. The rule of a refusal goes to standard error.
//!
//! Exit 0: a pass or a refusal was printed. 1: the sheet cannot be read, or the lines cannot be written, or the library is not of the crate's
//! interface. 2: no sheet was named.

mod files;

use std::path::Path;
use std::process::ExitCode;

use dispatch_bench::{VERSION, version};

fn main() -> ExitCode {
    let Some(path) = std::env::args_os().nth(1) else {
        eprintln!("usage: pass SHEET");
        return ExitCode::from(2);
    };
    if version() != VERSION {
        eprintln!(
            "the library's interface is {}, the crate's {VERSION}",
            version()
        );
        return ExitCode::FAILURE;
    }
    let Some(sheet) = files::read(Path::new(&path)) else {
        return ExitCode::FAILURE;
    };
    if let Err(refusal) = dispatch_bench::read(&sheet) {
        eprintln!("{refusal}\n{}", refusal.remedy());
    }
    files::print(&dispatch_bench::lines(&sheet))
}

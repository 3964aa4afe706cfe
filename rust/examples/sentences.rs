//! Prints the sentences of the refusals and reasons for other hosts: `cargo run --example sentences` include/dispatch_bench_sentences.h for those in C,
//! `cargo run --example sentences python` python/dispatch_bench/sentences.py.

use dispatch_bench::{Reason, Refusal, StoreRefusal};

/// The sentences of one function in C, or of one table in Python.
struct Table {
    comment: &'static str,
    c: &'static str,
    python: &'static str,
    sentences: Vec<(u32, &'static str)>,
}

/// A table of the numbers that have a sentence.
fn table(
    comment: &'static str,
    c: &'static str,
    python: &'static str,
    sentence: impl Fn(u32) -> &'static str,
) -> Table {
    let all = (1..=22).map(|number| (number, sentence(number)));
    Table {
        comment,
        c,
        python,
        sentences: all.filter(|(_, says)| !says.is_empty()).collect(),
    }
}

fn of_sheet(number: u32) -> Refusal {
    Refusal { number, offset: 0 }
}

fn of_store(number: u32) -> StoreRefusal {
    StoreRefusal { number, offset: 0 }
}

/// Whether a number is a store's alone.
fn is_store(number: u32) -> bool {
    matches!(number, 17 | 18)
}

fn reason(number: u32) -> &'static str {
    let found = Reason::ALL.iter().find(|reason| reason.number() == number);
    found.map_or("", |reason| reason.says())
}

fn tables() -> [Table; 5] {
    [
        table(
            "The rule of a refusal of a sheet, of what is sent with it, of a run or of a small matrix; 17 and 18 are a store's.",
            "dispatch_bench_sentence",
            "RULES",
            |number| match is_store(number) {
                true => of_store(number).rule(),
                false => of_sheet(number).rule(),
            },
        ),
        table(
            "What puts an end to it.",
            "dispatch_bench_remedy",
            "REMEDIES",
            |number| match is_store(number) {
                true => of_store(number).remedy(),
                false => of_sheet(number).remedy(),
            },
        ),
        table(
            "The rule of a refusal of a store of weights.",
            "dispatch_bench_store_sentence",
            "STORE_RULES",
            |number| of_store(number).rule(),
        ),
        table(
            "What puts an end to it.",
            "dispatch_bench_store_remedy",
            "STORE_REMEDIES",
            |number| of_store(number).remedy(),
        ),
        table(
            "Why a pair has no rank (dispatch_bench_why).",
            "dispatch_bench_reason_sentence",
            "REASONS",
            reason,
        ),
    ]
}

fn print_c(tables: &[Table]) {
    println!(
        "/* What the numbers of dispatch_bench.h stand for, in sentences (UTF-8): the table of the Rust crate, printed by its example sentences. */"
    );
    println!("#ifndef DISPATCH_BENCH_SENTENCES_H\n#define DISPATCH_BENCH_SENTENCES_H\n");
    println!("#include <stdint.h>");
    for table in tables {
        println!("\n/* {} Empty for any other number. */", table.comment);
        println!("static inline const char *{}(uint32_t number) {{", table.c);
        println!("    switch (number) {{");
        for (number, says) in &table.sentences {
            println!("    case {number}:\n        return {says:?};");
        }
        println!("    default:\n        return \"\";\n    }}\n}}");
    }
    println!("\n#endif");
}

fn print_python(tables: &[Table]) {
    println!(
        "\"\"\"What the library's numbers stand for: the table of the Rust crate, printed by its example sentences.\"\"\""
    );
    for table in tables {
        println!("\n# {}\n{} = {{", table.comment, table.python);
        for (number, says) in &table.sentences {
            println!("    {number}: {says:?},");
        }
        println!("}}");
    }
}

fn main() {
    match std::env::args().nth(1).as_deref() {
        Some("python") => print_python(&tables()),
        _ => print_c(&tables()),
    }
}

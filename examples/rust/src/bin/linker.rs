//! `linker EXPORTER IMPORTER`: each import of the second module is looked up among the exports of the first by its own name, and linked where what is
//! found may be given for it.

use std::process::ExitCode;

use ruthvelka::{ask, Answer, Query, Result, Validator, WasmFeatures};

/// A text that may hold a module's own names: `?` in place of all but the printable characters of ASCII, so that no name ends the line.
fn escaped(text: &str) -> String {
    text.chars().map(|it| if matches!(it, ' '..='~') { it } else { '?' }).collect()
}

fn link(exporter: &[u8], importer: &[u8]) -> Result<()> {
    let mut validator = Validator::new();
    let exports = validator.imports_and_exports(exporter)?.exports;
    let imports = validator.imports_and_exports(importer)?.imports;
    let mut queries = Vec::new();
    for (number, import) in imports.iter().enumerate() {
        let found = exports.iter().position(|it| it.name == import.name).unwrap_or(exports.len());
        queries.push(Query::MayBeGiven { export: (0, found as u32), import: (1, number as u32) });
    }
    let answers = ask(&[exporter, importer], WasmFeatures::default(), &queries)?;
    for (import, answer) in imports.iter().zip(answers) {
        let word = match answer {
            Answer::Yes => "linked",
            Answer::No => "not linked",
            Answer::Unknown => "not exported",
        };
        println!("{}.{}: {word}", escaped(&import.module), escaped(&import.name));
    }
    Ok(())
}

fn main() -> ExitCode {
    let names: Vec<String> = std::env::args().skip(1).collect();
    let [exporter, importer] = &names[..] else {
        eprintln!("usage: linker EXPORTER IMPORTER");
        return ExitCode::from(2);
    };
    let read = |name: &String| {
        std::fs::read(name).unwrap_or_else(|_| {
            eprintln!("linker: cannot read {name}");
            std::process::exit(2);
        })
    };
    if let Err(why) = link(&read(exporter), &read(importer)) {
        eprintln!("linker: a module is refused, for byte {}", why.offset());
        return ExitCode::from(1);
    }
    ExitCode::SUCCESS
}

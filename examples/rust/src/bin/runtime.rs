//! `runtime MODULE..`: loads modules one after another, as an engine does, and keeps the types of each. Each import is looked up by its own name among
//! the exports of the modules before, the last one first, and linked where what is found may be given for it. A module that is refused isn't loaded.

use ruthvelka::{validate, Export, Result, Types, Validator};
use std::process::ExitCode;

/// A text that may hold a module's own names: `?` in place of all but the printable characters of ASCII, so that no name ends the line.
fn escaped(text: &str) -> String {
    text.chars().map(|it| if matches!(it, ' '..='~') { it } else { '?' }).collect()
}

/// A module that was loaded.
struct Loaded {
    types: Types,
    exports: Vec<Export>,
}

/// What becomes of this import of the last module.
fn link(loaded: &[Loaded], types: &Types, number: u32, name: &str) -> &'static str {
    for module in loaded.iter().rev() {
        if let Some(place) = module.exports.iter().position(|it| it.name == name) {
            return if module.types.may_be_given(place as u32, types, number) { "linked" } else { "not linked" };
        }
    }
    "not exported"
}

/// Loads one module behind the others. The validator sees only what is valid by itself, so only one with more types than ids are left can make it fail.
fn load(validator: &mut Validator, bytes: &[u8], loaded: &mut Vec<Loaded>) -> Result<()> {
    validate(bytes)?;
    let types = validator.validate_all(bytes)?;
    let externs = validator.imports_and_exports(bytes)?;
    for (number, it) in externs.imports.iter().enumerate() {
        println!("{}.{}: {}", escaped(&it.module), escaped(&it.name), link(loaded, &types, number as u32, &it.name));
    }
    loaded.push(Loaded { types, exports: externs.exports });
    Ok(())
}

fn main() -> ExitCode {
    let (mut validator, mut loaded, mut status) = (Validator::new(), Vec::new(), ExitCode::SUCCESS);
    for name in std::env::args().skip(1) {
        let Ok(bytes) = std::fs::read(&name) else {
            eprintln!("runtime: cannot read {name}");
            return ExitCode::from(2);
        };
        if let Err(why) = load(&mut validator, &bytes, &mut loaded) {
            println!("not loaded, for byte {}", why.offset());
            status = ExitCode::from(1);
        }
    }
    status
}

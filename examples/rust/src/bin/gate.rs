//! `gate FILE..`: an admission gate. Each file is let in exactly where it is a valid module, within the limits for modules of strangers.

use ruthvelka::{Validator, WasmFeatures};
use std::process::ExitCode;

fn main() -> ExitCode {
    let mut status = ExitCode::SUCCESS;
    for name in std::env::args().skip(1) {
        let Ok(bytes) = std::fs::read(&name) else {
            eprintln!("gate: cannot read {name}");
            return ExitCode::from(2);
        };
        match Validator::new_with_features(WasmFeatures::STANDARD | WasmFeatures::CRATE_LIMITS).validate_all(&bytes) {
            Ok(it) => {
                let (types, functions) = (it.core_type_count_in_module(), it.function_count());
                println!("{name}: ok types {types} functions {functions} imports {} exports {}", it.import_count(), it.export_count());
            }
            Err(why) => {
                if why.is_refused() {
                    println!("{name}: refused at {}: {why:#}", why.offset());
                } else {
                    println!("{name}: {why}");
                }
                status = ExitCode::from(1);
            }
        }
    }
    status
}

use crate::error::{call, BinaryReaderError, Result, Told};
use crate::{CoreTypeId, WasmFeatures};
use ruthvelka_sys as sys;

/// The kinds of what is imported and exported.
#[derive(Clone, Copy, Debug, PartialEq, Eq, Hash)]
pub enum ExternalKind {
    /// A function.
    Func,
    /// A table.
    Table,
    /// A memory.
    Memory,
    /// A global.
    Global,
    /// A tag.
    Tag,
    /// A function that has exactly its type, and not one below it.
    FuncExact,
}

/// An import.
#[derive(Clone, Debug)]
pub struct Import {
    /// The name of the module that it is from.
    pub module: String,
    /// Its own name.
    pub name: String,
    /// Its kind.
    pub kind: ExternalKind,
    /// Of a function or a tag, the id of its type.
    pub type_id: Option<CoreTypeId>,
}

/// An export.
#[derive(Clone, Debug)]
pub struct Export {
    /// Its name.
    pub name: String,
    /// Its kind.
    pub kind: ExternalKind,
    /// Of a function or a tag, the id of its type.
    pub type_id: Option<CoreTypeId>,
}

/// The imports and the exports of a valid module, as [`Query`](crate::Query) numbers them.
#[derive(Clone, Debug)]
pub struct Externs {
    /// By their pairs of names, in the order in which the pairs first come.
    pub imports: Vec<Import>,
    /// In their order.
    pub exports: Vec<Export>,
}

fn kind_of(number: u32) -> Option<ExternalKind> {
    use ExternalKind::*;
    [(0, Func), (1, Table), (2, Memory), (3, Global), (4, Tag), (32, FuncExact)].into_iter().find(|it| it.0 == number).map(|it| it.1)
}

/// The parts of an import or an export; nothing where the library hasn't written what it says.
fn read_one(it: &sys::Extern, names: &[u8], told: Told) -> Option<Import> {
    let text = |start: u64, length: u64| {
        let rest = names.get(usize::try_from(start).ok()?..)?;
        Some(std::str::from_utf8(rest.get(..usize::try_from(length).ok()?)?).ok()?.to_owned())
    };
    Some(Import {
        module: text(it.module_start, it.module_length)?,
        name: text(it.name_start, it.name_length)?,
        kind: kind_of(it.kind)?,
        type_id: (it.type_id != sys::NO_ID).then_some(CoreTypeId(told, it.type_id)),
    })
}

pub(crate) fn read(bytes: &[u8], features: WasmFeatures) -> Result<Externs> {
    let mut imports = Vec::new();
    let mut exports = Vec::new();
    let mut names = vec![0u8; bytes.len()];
    loop {
        let report = call(|text: &mut [u8], report: &mut sys::Report| {
            // SAFETY: each pointer is of a live slice of that length, or of the report, and what is written overlaps nothing.
            unsafe {
                sys::ruthvelka_validate_with_externs(
                    bytes.as_ptr(),
                    bytes.len(),
                    features.bits(),
                    text.as_mut_ptr(),
                    text.len(),
                    report,
                    imports.as_mut_ptr(),
                    imports.len(),
                    exports.as_mut_ptr(),
                    exports.len(),
                    names.as_mut_ptr(),
                    names.len(),
                )
            }
        })?;
        if report.imports == imports.len() as u64 && report.exports == exports.len() as u64 {
            break;
        }
        imports = vec![sys::Extern::default(); report.imports as usize];
        exports = vec![sys::Extern::default(); report.exports as usize];
    }
    let told = Told::new();
    let parts = |its: &[sys::Extern]| its.iter().map(|it| read_one(it, &names, told)).collect::<Option<Vec<Import>>>();
    match (parts(&imports), parts(&exports)) {
        (Some(imports), Some(exports)) => {
            let exports = exports.into_iter().map(|it| Export { name: it.name, kind: it.kind, type_id: it.type_id }).collect();
            Ok(Externs { imports, exports })
        }
        _ => Err(BinaryReaderError::wrong_call()),
    }
}

use crate::error::{BinaryReaderError, Result};
use crate::{Types, Validator, WasmFeatures};
use ruthvelka_sys as sys;

/// A question about the valid modules of a list, which are named by their places in it, from 0 on.
#[derive(Clone, Copy, Debug, PartialEq, Eq)]
pub enum Query {
    /// Whether the type of one module with this index is that of the other, or below it.
    IsSubtype {
        /// The module and the index of the type that may be below.
        sub: (u32, u32),
        /// Those of the type that may be above.
        sup: (u32, u32),
    },
    /// Whether the export of one module with this number may be given for the import of the other.
    MayBeGiven {
        /// The module and the number of the export.
        export: (u32, u32),
        /// Those of the import.
        import: (u32, u32),
    },
}

/// What is said to a question.
#[derive(Clone, Copy, Debug, PartialEq, Eq)]
pub enum Answer {
    /// It isn't so.
    No,
    /// It is so.
    Yes,
    /// One of the two isn't there, or its module isn't valid or wasn't checked.
    Unknown,
}

impl Query {
    fn sent(&self) -> sys::Query {
        let (kind, first, second) = match *self {
            Query::IsSubtype { sub, sup } => (sys::IS_SUBTYPE, sub, sup),
            Query::MayBeGiven { export, import } => (sys::MAY_BE_GIVEN, export, import),
        };
        sys::Query { kind, first_module: first.0, first: first.1, second_module: second.0, second: second.1, answer: sys::UNKNOWN }
    }
}

fn listed(modules: &[&[u8]]) -> Vec<sys::Bytes> {
    modules.iter().map(|it| sys::Bytes { bytes: it.as_ptr(), length: it.len() }).collect()
}

fn done(result: u32) -> Result<()> {
    if result == sys::VALID {
        return Ok(());
    }
    Err(BinaryReaderError::new(result, &sys::Report::default(), b""))
}

/// What is said of each of these modules, by one validator. Behind one that is refused for more than a body the rest aren't checked.
pub fn validate_list(modules: &[&[u8]], features: WasmFeatures) -> Result<Vec<Result<Types>>> {
    let mut validator = Validator::new_with_features(features);
    let mut results = Vec::with_capacity(modules.len());
    let mut goes_on = true;
    for bytes in modules {
        let result = if goes_on { validator.validate_all(bytes) } else { Err(BinaryReaderError::not_checked()) };
        goes_on = goes_on && result.as_ref().map_or_else(|why| why.function().is_some(), |_| true);
        results.push(result);
    }
    Ok(results)
}

/// The answers to questions about the modules of a list.
pub fn ask(modules: &[&[u8]], features: WasmFeatures, queries: &[Query]) -> Result<Vec<Answer>> {
    let sent = listed(modules);
    let mut asked: Vec<sys::Query> = queries.iter().map(Query::sent).collect();
    // SAFETY: as above; the reports have no room.
    done(unsafe {
        sys::ruthvelka_validate_list_with_queries(
            sent.as_ptr(),
            sent.len(),
            features.bits(),
            std::ptr::null_mut(),
            0,
            asked.as_mut_ptr(),
            asked.len(),
        )
    })?;
    let answer = |it: &sys::Query| match it.answer {
        sys::YES => Answer::Yes,
        sys::NO => Answer::No,
        _ => Answer::Unknown,
    };
    Ok(asked.iter().map(answer).collect())
}

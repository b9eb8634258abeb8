#![doc = include_str!("../README.md")]
#![warn(missing_docs)]

mod error;
mod externs;
#[rustfmt::skip]
mod features;
mod flags;
mod list;
#[cfg(test)]
mod memory;
mod sections;
mod types;
mod validator;

pub use error::{BinaryReaderError, Result};
pub use externs::{Export, ExternalKind, Externs, Import};
pub use flags::WasmFeatures;
pub use list::{ask, validate_list, Answer, Query};
pub use sections::{bodies, custom_sections, function_name, CustomSection};
pub use types::{AbstractHeapType, CoreTypeId, HeapType, Types, ValType};
pub use validator::Validator;

/// What the valid module in these bytes has, under the features that are on by default.
pub fn validate(bytes: &[u8]) -> Result<Types> {
    Validator::new().validate_all(bytes)
}

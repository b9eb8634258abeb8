use crate::error::{known_library, BinaryReaderError, Result, Told};
use crate::types::Kept;
use crate::{externs, Externs, Types, WasmFeatures};
use ruthvelka_sys as sys;
use std::fmt;
use std::ptr;

/// A validator of modules under some features, one after another. It says nothing of any module until it is given one.
///
/// Its ids go on behind those of the modules before: by default two types of its modules have equal ids exactly where they are equal. It stays on one
/// thread, with the types that it gives.
pub struct Validator {
    features: WasmFeatures,
    // made with the first module, since making it takes memory
    held: Option<Held>,
    told: Told,
    allocator: *const sys::Allocator,
}

/// A handle that holds a validator. It is freed once, where this is dropped.
struct Held(sys::Validator);

impl Drop for Held {
    fn drop(&mut self) {
        // SAFETY: the handle is written by the library alone, is never copied, and is on the thread that it was made on.
        unsafe { sys::ruthvelka_validator_free(&mut self.0) }
    }
}

impl Default for Validator {
    fn default() -> Validator {
        Validator::new_with_features(WasmFeatures::default())
    }
}

impl fmt::Debug for Validator {
    fn fmt(&self, f: &mut fmt::Formatter<'_>) -> fmt::Result {
        f.debug_struct("Validator").field("features", &self.features).finish_non_exhaustive()
    }
}

impl Validator {
    /// A validator under the features that are on by default.
    pub fn new() -> Validator {
        Validator::default()
    }

    /// A validator under these features.
    pub fn new_with_features(features: WasmFeatures) -> Validator {
        Validator { features, held: None, told: Told::new(), allocator: ptr::null() }
    }

    /// The same, of which all memory is taken from this allocator.
    #[cfg(test)]
    pub(crate) fn new_in(allocator: &'static sys::Allocator) -> Validator {
        Validator { allocator, ..Validator::new() }
    }

    /// Its features.
    pub fn features(&self) -> &WasmFeatures {
        &self.features
    }

    fn held(&mut self) -> Result<*mut sys::Validator> {
        if self.held.is_none() {
            known_library()?;
            let mut held = Held(sys::Validator::NOTHING);
            // SAFETY: the handle holds nothing, and the allocator is null or lives for ever.
            let status = unsafe { sys::ruthvelka_validator_new(&mut held.0, self.features.bits(), self.allocator) };
            if status != sys::STATUS_DONE {
                return Err(BinaryReaderError::told(status, &sys::Outcome::default(), b""));
            }
            self.held = Some(held);
        }
        match &mut self.held {
            Some(held) => Ok(&mut held.0),
            None => Err(BinaryReaderError::wrong_call()),
        }
    }

    /// The types of the valid module in these bytes.
    ///
    /// A module that is refused for more than a body, or for which memory is refused, may leave the validator unable to go on: from then on each call
    /// gives an error that [`is_failed`](BinaryReaderError::is_failed). Types that it gave stay.
    pub fn validate_all(&mut self, bytes: &[u8]) -> Result<Types> {
        let (told, mut text, mut outcome) = (self.told, [0u8; 512], sys::Outcome::default());
        let held = self.held()?;
        let mut kept = Kept::nothing(told);
        // SAFETY: the handles are the library's own, on their thread; each other pointer is of a live slice of that length, or of the outcome; and what is
        // written overlaps nothing.
        let status = unsafe {
            sys::ruthvelka_validator_validate(held, bytes.as_ptr(), bytes.len(), text.as_mut_ptr(), text.len(), &mut outcome, kept.place())
        };
        // what isn't said twice isn't taken for valid
        match status {
            sys::STATUS_VALID if outcome.status == sys::STATUS_VALID => Types::read(kept, &outcome),
            sys::STATUS_REFUSED => Err(self.refusal(bytes, &outcome, &text)),
            sys::STATUS_VALID => Err(BinaryReaderError::wrong_call()),
            _ => Err(BinaryReaderError::told(status, &outcome, b"")),
        }
    }

    /// The refusal with its whole message. Where that had no room it is asked for again, by a call that leaves the validator as it is.
    fn refusal(&self, bytes: &[u8], outcome: &sys::Outcome, text: &[u8]) -> BinaryReaderError {
        let length = outcome.message_length as usize;
        if length > text.len() {
            let (mut longer, mut again) = (vec![0u8; length], sys::Outcome::default());
            // SAFETY: each pointer is of a live slice of that length, or of the outcome, and what is written overlaps nothing.
            let status =
                unsafe { sys::ruthvelka_check(bytes.as_ptr(), bytes.len(), self.features.bits(), longer.as_mut_ptr(), longer.len(), &mut again) };
            if status == sys::STATUS_REFUSED && (again.offset, again.message_length) == (outcome.offset, outcome.message_length) {
                return BinaryReaderError::told(status, outcome, &longer);
            }
        }
        BinaryReaderError::told(sys::STATUS_REFUSED, outcome, &text[..length.min(text.len())])
    }

    /// Makes it ready for its next module, as [`validate_all`](Validator::validate_all) does by itself. It is an error where it can't go on.
    pub fn reset(&mut self) -> Result<()> {
        let held = self.held()?;
        // SAFETY: the handle is the library's own, on its thread.
        match unsafe { sys::ruthvelka_validator_reset(held) } {
            sys::STATUS_DONE => Ok(()),
            status => Err(BinaryReaderError::told(status, &sys::Outcome::default(), b"")),
        }
    }

    /// The imports and the exports of the valid module in these bytes, as [`Types::may_be_given`] numbers them. The call is by itself: its ids compare
    /// with no others.
    pub fn imports_and_exports(&mut self, bytes: &[u8]) -> Result<Externs> {
        externs::read(bytes, self.features)
    }
}

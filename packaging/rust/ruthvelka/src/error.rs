use crate::WasmFeatures;
use ruthvelka_sys as sys;
use std::fmt;
use std::sync::atomic::{AtomicU64, Ordering};

/// What a call gives, or why it gives nothing.
pub type Result<T, E = BinaryReaderError> = std::result::Result<T, E>;

/// What kind of answer it is.
#[derive(Clone, Copy, Debug, PartialEq, Eq)]
enum Why {
    Refused,
    NoMemory,
    NotChecked,
    Failed,
    WrongCall,
}

/// Why nothing is told of a module. It is refused only where [`is_refused`](BinaryReaderError::is_refused) says so; else nothing is said of its bytes.
#[derive(Clone, Debug)]
pub struct BinaryReaderError {
    why: Why,
    offset: u64,
    function: Option<u32>,
    missing: WasmFeatures,
    message: String,
}

impl BinaryReaderError {
    fn of(why: Why, text: &[u8]) -> BinaryReaderError {
        let message = match why {
            Why::Refused => String::from_utf8_lossy(text).into_owned(),
            Why::NoMemory => "out of memory".into(),
            Why::NotChecked => "not checked: it stands behind a module that ended the list".into(),
            Why::Failed => "the validator can't go on".into(),
            Why::WrongCall => "wrong call".into(),
        };
        BinaryReaderError { why, offset: 0, function: None, missing: WasmFeatures(0), message }
    }

    fn at(self, offset: u64, function: u32, missing: u64) -> BinaryReaderError {
        if !self.is_refused() {
            return self;
        }
        let function = (function != sys::NO_FUNCTION).then_some(function);
        BinaryReaderError { offset, function, missing: WasmFeatures(missing), ..self }
    }

    /// What a call with a report says that gave this verdict.
    pub(crate) fn new(verdict: u32, report: &sys::Report, text: &[u8]) -> BinaryReaderError {
        let why = match verdict {
            sys::REFUSED => Why::Refused,
            sys::NO_MEMORY => Why::NoMemory,
            _ => Why::WrongCall,
        };
        BinaryReaderError::of(why, text).at(report.offset, report.function, report.missing_features)
    }

    /// What a call on a handle says that gave this status.
    pub(crate) fn told(status: u32, outcome: &sys::Outcome, text: &[u8]) -> BinaryReaderError {
        let why = match status {
            sys::STATUS_REFUSED => Why::Refused,
            sys::STATUS_NO_MEMORY => Why::NoMemory,
            sys::STATUS_FAILED => Why::Failed,
            _ => Why::WrongCall,
        };
        BinaryReaderError::of(why, text).at(outcome.offset, outcome.function, outcome.missing_features)
    }

    pub(crate) fn not_checked() -> BinaryReaderError {
        BinaryReaderError::of(Why::NotChecked, b"")
    }

    pub(crate) fn wrong_call() -> BinaryReaderError {
        BinaryReaderError::of(Why::WrongCall, b"")
    }

    /// The raw message. It may quote names of the module, with any characters in them: escape it, or print the error.
    pub fn message(&self) -> &str {
        &self.message
    }

    /// The byte that is wrong, counted from the first one.
    pub fn offset(&self) -> u64 {
        self.offset
    }

    /// The function whose body is refused, imported ones counted.
    pub fn function(&self) -> Option<u32> {
        self.function
    }

    /// The proposal that would lift the refusal, if there is one.
    pub fn missing_features(&self) -> WasmFeatures {
        self.missing
    }

    /// Whether the bytes are no valid module.
    pub fn is_refused(&self) -> bool {
        self.why == Why::Refused
    }

    /// Whether memory was refused, so that nothing is said of the bytes.
    pub fn is_out_of_memory(&self) -> bool {
        self.why == Why::NoMemory
    }

    /// Whether the module stands in a list behind one that ended it.
    pub fn is_not_checked(&self) -> bool {
        self.why == Why::NotChecked
    }

    /// Whether the validator couldn't go on, so that the bytes weren't looked at.
    pub fn is_failed(&self) -> bool {
        self.why == Why::Failed
    }
}

/// Whether a terminal may take the character for something else than text.
fn is_hidden(it: char) -> bool {
    it.is_control() || matches!(it, '\u{61c}' | '\u{200e}' | '\u{200f}' | '\u{2028}'..='\u{202e}' | '\u{2066}'..='\u{2069}')
}

/// The message, escaped, and the offset; by `{:#}` the message alone.
impl fmt::Display for BinaryReaderError {
    fn fmt(&self, f: &mut fmt::Formatter<'_>) -> fmt::Result {
        for it in self.message.chars() {
            if is_hidden(it) {
                write!(f, "{}", it.escape_unicode())?;
            } else {
                write!(f, "{it}")?;
            }
        }
        if self.is_refused() && !f.alternate() {
            write!(f, " (at offset 0x{:x})", self.offset)?;
        }
        Ok(())
    }
}

impl std::error::Error for BinaryReaderError {}

/// Which validator, or which call, gave an id: no two have one number.
#[derive(Clone, Copy, Debug, PartialEq, Eq, Hash, PartialOrd, Ord)]
pub(crate) struct Told(u64);

impl Told {
    pub(crate) fn new() -> Told {
        static NEXT: AtomicU64 = AtomicU64::new(0);
        Told(NEXT.fetch_add(1, Ordering::Relaxed))
    }
}

/// Refuses a library of another version.
pub(crate) fn known_library() -> Result<()> {
    // SAFETY: it may be called at any time.
    if unsafe { sys::ruthvelka_version() } / 1000 == crate::features::LIBRARY_VERSION / 1000 {
        return Ok(());
    }
    Err(BinaryReaderError::wrong_call())
}

/// Makes a call of the library on one module. A message that has no room is asked for again. The report is of a valid module.
pub(crate) fn call(mut it: impl FnMut(&mut [u8], &mut sys::Report) -> u32) -> Result<sys::Report> {
    known_library()?;
    let mut text = vec![0u8; 512];
    let mut report = sys::Report::default();
    let mut verdict = it(&mut text, &mut report);
    if verdict == sys::REFUSED && report.message_length > text.len() as u64 {
        text = vec![0u8; report.message_length as usize];
        report = sys::Report::default();
        verdict = it(&mut text, &mut report);
    }
    if verdict == sys::VALID && report.verdict == sys::VALID {
        return Ok(report);
    }
    let length = text.len().min(report.message_length as usize);
    // what isn't said twice isn't taken for valid
    let verdict = if verdict == sys::VALID { sys::BAD_CALL } else { verdict };
    Err(BinaryReaderError::new(verdict, &report, &text[..length]))
}

#[cfg(test)]
mod tests {
    use super::*;

    #[test]
    fn what_nothing_was_written_into_is_not_valid() {
        for verdict in 0..9 {
            let why = call(|_, _| verdict).unwrap_err();
            assert_eq!(why.is_refused(), verdict == sys::REFUSED);
            assert_eq!(why.is_out_of_memory(), verdict == sys::NO_MEMORY);
        }
        assert_ne!(sys::Report::default().verdict, sys::VALID);
    }

    #[test]
    fn statuses_are_told_apart() {
        for status in 0..32 {
            let why = BinaryReaderError::told(status, &sys::Outcome::default(), b"");
            let kinds = [why.is_refused(), why.is_out_of_memory(), why.is_failed(), why.is_not_checked()];
            assert_eq!(kinds, [status == 18, status == 19, status == 20, false]);
        }
        assert_ne!(sys::Outcome::default().status, sys::STATUS_VALID);
    }

    #[test]
    fn unknown_features_are_a_wrong_call() {
        let why = crate::Validator::new_with_features(WasmFeatures(1 << 63)).validate_all(b"\0asm\x01\0\0\0").unwrap_err();
        assert!(!why.is_refused() && !why.is_out_of_memory() && !why.is_not_checked());
        assert_eq!(why.message(), "wrong call");
    }
}

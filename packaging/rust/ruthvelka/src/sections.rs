use crate::error::{known_library, BinaryReaderError, Result};
use ruthvelka_sys as sys;
use std::ops::Range;

/// A custom section: its name, and where it lies in the bytes of its module. What it holds is the module's own word.
#[derive(Clone, Copy, Debug, PartialEq, Eq)]
pub struct CustomSection<'a> {
    name: &'a str,
    data: &'a [u8],
    start: usize,
    data_start: usize,
}

impl<'a> CustomSection<'a> {
    /// Its name. Several sections may have one.
    pub fn name(&self) -> &'a str {
        self.name
    }

    /// All behind its name.
    pub fn data(&self) -> &'a [u8] {
        self.data
    }

    /// Where its data begins, counted from the first byte of the module.
    pub fn data_offset(&self) -> usize {
        self.data_start
    }

    /// Where its contents lie: the length of its name, the name, and its data.
    pub fn range(&self) -> Range<usize> {
        self.start..self.data_start + self.data.len()
    }
}

/// Whether something was told. An error of a refusal says only that the bytes aren't divided into sections as a module is.
fn found(status: u32) -> Result<()> {
    match status {
        sys::STATUS_DONE => Ok(()),
        _ => Err(BinaryReaderError::told(status, &sys::Outcome::default(), b"the bytes are not divided into sections as a module is")),
    }
}

/// These bytes of the module, if they are there.
fn part(bytes: &[u8], start: u64, end: u64) -> Option<&[u8]> {
    bytes.get(usize::try_from(start).ok()?..usize::try_from(end).ok()?)
}

fn read_section<'a>(bytes: &'a [u8], it: &sys::CustomSection) -> Option<CustomSection<'a>> {
    let data = part(bytes, it.data_start, it.end)?;
    let name = std::str::from_utf8(part(bytes, it.name_start, it.name_start.checked_add(it.name_length)?)?).ok()?;
    Some(CustomSection { name, data, start: usize::try_from(it.start).ok()?, data_start: usize::try_from(it.data_start).ok()? })
}

/// The custom sections of a module, in their order. Nothing is said of whether it is valid.
pub fn custom_sections(bytes: &[u8]) -> Result<Vec<CustomSection<'_>>> {
    known_library()?;
    let mut sections: Vec<sys::CustomSection> = Vec::new();
    let mut count = 0u64;
    loop {
        // SAFETY: each pointer is of a live slice of that length, or of the count, and what is written overlaps nothing.
        found(unsafe { sys::ruthvelka_custom_sections(bytes.as_ptr(), bytes.len(), &mut count, sections.as_mut_ptr(), sections.len()) })?;
        if count == sections.len() as u64 {
            break;
        }
        sections = vec![sys::CustomSection { size: std::mem::size_of::<sys::CustomSection>() as u64, ..Default::default() }; count as usize];
    }
    sections.iter().map(|it| read_section(bytes, it)).collect::<Option<Vec<_>>>().ok_or_else(BinaryReaderError::wrong_call)
}

/// The bodies of a module's functions, in their order, each as where it lies; that of the first function that isn't imported comes first. Nothing is said
/// of whether they are valid.
pub fn bodies(bytes: &[u8]) -> Result<Vec<Range<usize>>> {
    known_library()?;
    let mut found_bodies: Vec<sys::Body> = Vec::new();
    let mut count = 0u64;
    loop {
        // SAFETY: each pointer is of a live slice of that length, or of the count, and what is written overlaps nothing.
        found(unsafe { sys::ruthvelka_bodies(bytes.as_ptr(), bytes.len(), &mut count, found_bodies.as_mut_ptr(), found_bodies.len()) })?;
        if count == found_bodies.len() as u64 {
            break;
        }
        found_bodies = vec![sys::Body { size: std::mem::size_of::<sys::Body>() as u64, ..Default::default() }; count as usize];
    }
    let place = |it: &sys::Body| part(bytes, it.start, it.end).map(|_| it.start as usize..it.end as usize);
    found_bodies.iter().map(place).collect::<Option<Vec<_>>>().ok_or_else(BinaryReaderError::wrong_call)
}

/// The name that a module gives the function of this index, imported ones counted, if it gives one. It is the module's own word: it may hold any
/// characters, and may be the name of another function. Each call goes over the whole module, so it isn't for each function.
pub fn function_name(bytes: &[u8], function: u32) -> Result<Option<String>> {
    known_library()?;
    let mut name = vec![0u8; 256];
    let mut length = 0u64;
    loop {
        // SAFETY: each pointer is of a live slice of that length, or of the length, and what is written overlaps nothing.
        let status = unsafe { sys::ruthvelka_function_name(bytes.as_ptr(), bytes.len(), function, &mut length, name.as_mut_ptr(), name.len()) };
        if status == sys::STATUS_NONE {
            return Ok(None);
        }
        found(status)?;
        if length <= name.len() as u64 {
            break;
        }
        name = vec![0u8; length as usize];
    }
    name.truncate(length as usize);
    String::from_utf8(name).map(Some).map_err(|_| BinaryReaderError::wrong_call())
}

//! Where parts of a module lie. What is expected was written from the bytes by hand.

use ruthvelka::*;
use ruthvelka_sys as sys;

// a custom section "a" with "xyz"; two functions of [] -> [] and their bodies; a name section with "f" for function 0 and "g\n" for 3
const PARTS: &[u8] = b"\0asm\x01\0\0\0\0\x05\x01axyz\x01\x04\x01\x60\0\0\x03\x03\x02\0\0\x0a\x08\x02\x02\0\x0b\x03\0\x01\x0b\
    \0\x0f\x04name\x01\x08\x02\0\x01f\x03\x02g\n";

#[test]
fn layouts_are_those_of_the_header() {
    assert_eq!((std::mem::size_of::<sys::CustomSection>(), std::mem::size_of::<sys::Body>()), (48, 24));
}

#[test]
fn custom_sections_are_where_they_are() {
    let found = custom_sections(PARTS).unwrap();
    assert_eq!(found.iter().map(|it| it.name()).collect::<Vec<_>>(), ["a", "name"]);
    assert_eq!((found[0].data(), found[0].data_offset(), found[0].range()), (&b"xyz"[..], 12, 10..15));
    assert_eq!((found[1].data().len(), found[1].range().end), (10, PARTS.len()));
    assert_eq!(custom_sections(&PARTS[..8]).unwrap(), []);
}

#[test]
fn bodies_are_where_they_are() {
    let found = bodies(PARTS).unwrap();
    assert_eq!(found.iter().map(|it| &PARTS[it.clone()]).collect::<Vec<_>>(), [&b"\0\x0b"[..], b"\0\x01\x0b"]);
    assert_eq!(bodies(&PARTS[..15]).unwrap(), []);
}

#[test]
fn names_are_those_of_the_name_section() {
    assert_eq!(function_name(PARTS, 0).unwrap().as_deref(), Some("f"));
    assert_eq!(function_name(PARTS, 3).unwrap().as_deref(), Some("g\n"));
    assert_eq!(function_name(PARTS, 1).unwrap(), None);
    // one that has no room at first: 300 letters
    let mut long = b"\0asm\x01\0\0\0\0\xb9\x02\x04name\x01\xb1\x02\x01\0\xac\x02".to_vec();
    long.extend([b'n'; 300]);
    long[9..11].copy_from_slice(&[0x80 | ((5 + 3 + 304) & 0x7f) as u8, ((5 + 3 + 304) >> 7) as u8]);
    long[17..19].copy_from_slice(&[0x80 | (304 & 0x7f) as u8, (304 >> 7) as u8]);
    assert_eq!(function_name(&long, 0).unwrap(), Some("n".repeat(300)));
}

#[test]
fn what_is_no_module_has_no_parts() {
    for bytes in [&b""[..], &PARTS[..7], &PARTS[..9], &PARTS[..PARTS.len() - 1]] {
        assert!(custom_sections(bytes).unwrap_err().is_refused());
        assert!(bodies(bytes).unwrap_err().is_refused());
        assert!(function_name(bytes, 0).unwrap_err().is_refused());
    }
}

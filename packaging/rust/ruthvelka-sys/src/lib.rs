//! The calls of `ruthvelka.h`, as they are declared there. The header says what each asks of its caller.
#![no_std]

use core::ffi::c_void;

pub const VALID: u32 = 0;
pub const REFUSED: u32 = 1;
pub const NO_MEMORY: u32 = 2;
pub const NOT_CHECKED: u32 = 3;
pub const BAD_CALL: u32 = 4;

pub const NO_FUNCTION: u32 = u32::MAX;
pub const NO_ID: u32 = u32::MAX;

pub const IS_SUBTYPE: u32 = 0;
pub const MAY_BE_GIVEN: u32 = 1;

pub const NO: u32 = 0;
pub const YES: u32 = 1;
pub const UNKNOWN: u32 = 2;

pub const STATUS_DONE: u32 = 16;
pub const STATUS_VALID: u32 = 17;
pub const STATUS_REFUSED: u32 = 18;
pub const STATUS_NO_MEMORY: u32 = 19;
pub const STATUS_FAILED: u32 = 20;
pub const STATUS_WRONG: u32 = 21;
pub const STATUS_NONE: u32 = 22;

pub const I32: u32 = 0x7f;
pub const I64: u32 = 0x7e;
pub const F32: u32 = 0x7d;
pub const F64: u32 = 0x7c;
pub const V128: u32 = 0x7b;
pub const REFERENCE: u32 = 0x64;
pub const NULL_OR_REFERENCE: u32 = 0x63;
pub const HEAP_FUNC: u32 = 0x70;
pub const HEAP_EXTERN: u32 = 0x6f;
pub const HEAP_ANY: u32 = 0x6e;
pub const HEAP_EQ: u32 = 0x6d;
pub const HEAP_I31: u32 = 0x6c;
pub const HEAP_STRUCT: u32 = 0x6b;
pub const HEAP_ARRAY: u32 = 0x6a;
pub const HEAP_EXN: u32 = 0x69;
pub const HEAP_CONT: u32 = 0x68;
pub const HEAP_NONE: u32 = 0x71;
pub const HEAP_NOEXTERN: u32 = 0x72;
pub const HEAP_NOFUNC: u32 = 0x73;
pub const HEAP_NOEXN: u32 = 0x74;
pub const HEAP_NOCONT: u32 = 0x75;
pub const HEAP_ID: u32 = 0;

/// `struct ruthvelka_outcome`. By default it is of no module that is valid.
#[repr(C)]
#[derive(Clone, Copy, Debug)]
pub struct Outcome {
    pub size: u64,
    pub status: u32,
    pub function: u32,
    pub offset: u64,
    pub missing_features: u64,
    pub message_length: u64,
    pub imports: u64,
    pub exports: u64,
    pub types: u32,
    pub functions: u32,
    pub tables: u32,
    pub memories: u32,
    pub globals: u32,
    pub tags: u32,
}

impl Default for Outcome {
    fn default() -> Outcome {
        Outcome {
            size: core::mem::size_of::<Outcome>() as u64,
            status: STATUS_WRONG,
            function: NO_FUNCTION,
            offset: 0,
            missing_features: 0,
            message_length: 0,
            imports: 0,
            exports: 0,
            types: 0,
            functions: 0,
            tables: 0,
            memories: 0,
            globals: 0,
            tags: 0,
        }
    }
}

/// `struct ruthvelka_allocator`.
#[repr(C)]
#[derive(Clone, Copy, Debug)]
pub struct Allocator {
    pub size: usize,
    pub context: *mut c_void,
    pub allocate: Option<unsafe extern "C" fn(context: *mut c_void, size: usize) -> *mut c_void>,
    pub resize: Option<unsafe extern "C" fn(context: *mut c_void, block: *mut c_void, size: usize) -> *mut c_void>,
    pub release: Option<unsafe extern "C" fn(context: *mut c_void, block: *mut c_void)>,
}

/// `struct ruthvelka_validator`, a handle: it is moved and never copied.
#[repr(C)]
#[derive(Debug)]
pub struct Validator {
    words: [*mut c_void; 4],
}

/// `struct ruthvelka_types`, a handle: it is moved and never copied.
#[repr(C)]
#[derive(Debug)]
pub struct Types {
    words: [*mut c_void; 4],
}

impl Validator {
    /// One that holds nothing.
    pub const NOTHING: Validator = Validator { words: [core::ptr::null_mut(); 4] };
}

impl Types {
    /// One that holds nothing.
    pub const NOTHING: Types = Types { words: [core::ptr::null_mut(); 4] };
}

/// `struct ruthvelka_value_type`.
#[repr(C)]
#[derive(Clone, Copy, Debug)]
pub struct ValueType {
    pub size: u64,
    pub kind: u32,
    pub heap: u32,
    pub id: u32,
    pub flags: u32,
}

/// `struct ruthvelka_report`. By default it is that of a wrong call, and not of a valid module.
#[repr(C)]
#[derive(Clone, Copy, Debug)]
pub struct Report {
    pub offset: u64,
    pub missing_features: u64,
    pub message_length: u64,
    pub imports: u64,
    pub exports: u64,
    pub names_length: u64,
    pub verdict: u32,
    pub function: u32,
    pub types: u32,
    pub functions: u32,
    pub tables: u32,
    pub memories: u32,
    pub globals: u32,
    pub tags: u32,
}

impl Default for Report {
    fn default() -> Report {
        Report {
            offset: 0,
            missing_features: 0,
            message_length: 0,
            imports: 0,
            exports: 0,
            names_length: 0,
            verdict: BAD_CALL,
            function: NO_FUNCTION,
            types: 0,
            functions: 0,
            tables: 0,
            memories: 0,
            globals: 0,
            tags: 0,
        }
    }
}

/// `struct ruthvelka_extern`.
#[repr(C)]
#[derive(Clone, Copy, Debug, Default)]
pub struct Extern {
    pub module_start: u64,
    pub module_length: u64,
    pub name_start: u64,
    pub name_length: u64,
    pub kind: u32,
    pub type_id: u32,
}

/// `struct ruthvelka_bytes`.
#[repr(C)]
#[derive(Clone, Copy, Debug)]
pub struct Bytes {
    pub bytes: *const u8,
    pub length: usize,
}

/// `struct ruthvelka_query`.
#[repr(C)]
#[derive(Clone, Copy, Debug)]
pub struct Query {
    pub kind: u32,
    pub first_module: u32,
    pub first: u32,
    pub second_module: u32,
    pub second: u32,
    pub answer: u32,
}

/// `struct ruthvelka_custom_section`.
#[repr(C)]
#[derive(Clone, Copy, Debug, Default)]
pub struct CustomSection {
    pub size: u64,
    pub start: u64,
    pub name_start: u64,
    pub name_length: u64,
    pub data_start: u64,
    pub end: u64,
}

/// `struct ruthvelka_body`.
#[repr(C)]
#[derive(Clone, Copy, Debug, Default)]
pub struct Body {
    pub size: u64,
    pub start: u64,
    pub end: u64,
}

extern "C" {
    pub fn ruthvelka_version() -> u32;
    pub fn ruthvelka_feature(name: *const u8, length: usize) -> u64;
    pub fn ruthvelka_feature_name(feature: u64, name: *mut u8, room: usize) -> usize;
    pub fn ruthvelka_validate(bytes: *const u8, length: usize, features: u64, message: *mut u8, message_room: usize, report: *mut Report) -> u32;
    pub fn ruthvelka_validate_with_ids(
        bytes: *const u8,
        length: usize,
        features: u64,
        message: *mut u8,
        message_room: usize,
        report: *mut Report,
        type_ids: *mut u32,
        type_room: usize,
        function_ids: *mut u32,
        function_room: usize,
    ) -> u32;
    pub fn ruthvelka_validate_with_externs(
        bytes: *const u8,
        length: usize,
        features: u64,
        message: *mut u8,
        message_room: usize,
        report: *mut Report,
        imports: *mut Extern,
        import_room: usize,
        exports: *mut Extern,
        export_room: usize,
        names: *mut u8,
        name_room: usize,
    ) -> u32;
    pub fn ruthvelka_validate_list(
        modules: *const Bytes,
        module_count: usize,
        features: u64,
        reports: *mut Report,
        report_room: usize,
        type_ids: *mut u32,
        type_room: usize,
        function_ids: *mut u32,
        function_room: usize,
    ) -> u32;
    pub fn ruthvelka_validate_list_with_queries(
        modules: *const Bytes,
        module_count: usize,
        features: u64,
        reports: *mut Report,
        report_room: usize,
        queries: *mut Query,
        query_count: usize,
    ) -> u32;
    pub fn ruthvelka_check(bytes: *const u8, length: usize, features: u64, message: *mut u8, message_room: usize, outcome: *mut Outcome) -> u32;
    pub fn ruthvelka_validator_new(validator: *mut Validator, features: u64, allocator: *const Allocator) -> u32;
    pub fn ruthvelka_validator_validate(
        validator: *mut Validator,
        bytes: *const u8,
        length: usize,
        message: *mut u8,
        message_room: usize,
        outcome: *mut Outcome,
        types: *mut Types,
    ) -> u32;
    pub fn ruthvelka_validator_reset(validator: *mut Validator) -> u32;
    pub fn ruthvelka_validator_free(validator: *mut Validator);
    pub fn ruthvelka_types_retain(types: *mut Types, copy: *mut Types) -> u32;
    pub fn ruthvelka_types_release(types: *mut Types);
    pub fn ruthvelka_types_ids(
        types: *mut Types,
        outcome: *mut Outcome,
        type_ids: *mut u32,
        type_room: usize,
        function_ids: *mut u32,
        function_room: usize,
    ) -> u32;
    pub fn ruthvelka_types_is_subtype(types: *mut Types, first: u32, second: u32) -> u32;
    pub fn ruthvelka_types_matches(types: *mut Types, first: *const ValueType, second: *const ValueType) -> u32;
    pub fn ruthvelka_types_entity_may_be_given(exporter: *mut Types, exported: u32, importer: *mut Types, imported: u32) -> u32;
    pub fn ruthvelka_custom_sections(bytes: *const u8, length: usize, count: *mut u64, sections: *mut CustomSection, room: usize) -> u32;
    pub fn ruthvelka_bodies(bytes: *const u8, length: usize, count: *mut u64, bodies: *mut Body, room: usize) -> u32;
    pub fn ruthvelka_function_name(bytes: *const u8, length: usize, function: u32, name_length: *mut u64, name: *mut u8, room: usize) -> u32;
}

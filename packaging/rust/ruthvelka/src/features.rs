// tools/write_packages.py of the repository writes this file, from include/ruthvelka.h.
use crate::WasmFeatures;

/// The version of the library that this crate was made for.
pub(crate) const LIBRARY_VERSION: u32 = 1000;

impl WasmFeatures {
    /// mutable globals are imported and exported
    pub const MUTABLE_GLOBAL: WasmFeatures = WasmFeatures(1 << 0);
    /// values that are references, and more than one table
    pub const REFERENCE_TYPES: WasmFeatures = WasmFeatures(1 << 1);
    /// more than one result
    pub const MULTI_VALUE: WasmFeatures = WasmFeatures(1 << 2);
    /// passive segments, and the data count section
    pub const BULK_MEMORY: WasmFeatures = WasmFeatures(1 << 3);
    /// vectors of 128 bits
    pub const SIMD: WasmFeatures = WasmFeatures(1 << 4);
    /// shared memories
    pub const THREADS: WasmFeatures = WasmFeatures(1 << 5);
    /// types, tables and globals that are shared between threads
    pub const SHARED_EVERYTHING_THREADS: WasmFeatures = WasmFeatures(1 << 6);
    /// floating-point types
    pub const FLOATS: WasmFeatures = WasmFeatures(1 << 7);
    /// more than one memory
    pub const MULTI_MEMORY: WasmFeatures = WasmFeatures(1 << 8);
    /// tags, and references to exceptions
    pub const EXCEPTIONS: WasmFeatures = WasmFeatures(1 << 9);
    /// memories and tables whose addresses have 64 bits
    pub const MEMORY64: WasmFeatures = WasmFeatures(1 << 10);
    /// add, sub and mul of integers in constant expressions
    pub const EXTENDED_CONST: WasmFeatures = WasmFeatures(1 << 11);
    /// references to types by index, and ones that may not be null
    pub const FUNCTION_REFERENCES: WasmFeatures = WasmFeatures(1 << 12);
    /// recursion groups, sub types, structures and arrays
    pub const GC: WasmFeatures = WasmFeatures(1 << 13);
    /// structure, array, continuation types; references but to functions and exceptions
    pub const GC_TYPES: WasmFeatures = WasmFeatures(1 << 14);
    /// memories with a written page size
    pub const CUSTOM_PAGE_SIZES: WasmFeatures = WasmFeatures(1 << 15);
    /// descriptor clauses, struct.new_desc, exact references; see DESCRIPTOR_OPERATORS
    pub const CUSTOM_DESCRIPTORS: WasmFeatures = WasmFeatures(1 << 16);
    /// continuation types, and tags with results; see STACK_SWITCHING_OPERATORS
    pub const STACK_SWITCHING: WasmFeatures = WasmFeatures(1 << 17);
    /// components, which are not validated
    pub const COMPONENT_MODEL: WasmFeatures = WasmFeatures(1 << 18);
    /// the operators on vectors, also the relaxed ones; they need SIMD too
    pub const VECTOR_OPERATORS: WasmFeatures = WasmFeatures(1 << 19);
    /// the atomic operators on memories and atomic.fence; they need THREADS too
    pub const ATOMIC_OPERATORS: WasmFeatures = WasmFeatures(1 << 20);
    /// try, catch, catch_all, rethrow and delegate; they need EXCEPTIONS too
    pub const LEGACY_EXCEPTIONS: WasmFeatures = WasmFeatures(1 << 21);
    /// no proposal: the limits of the Rust crate's readers, for hosts that take modules from strangers
    pub const CRATE_LIMITS: WasmFeatures = WasmFeatures(1 << 22);
    /// sums, differences and products of integers of 128 bits
    pub const WIDE_ARITHMETIC: WasmFeatures = WasmFeatures(1 << 23);
    /// memory.discard, which gives up the content of pages
    pub const MEMORY_CONTROL: WasmFeatures = WasmFeatures(1 << 24);
    /// ref.get_desc, casts and branches by descriptors; they need CUSTOM_DESCRIPTORS too
    pub const DESCRIPTOR_OPERATORS: WasmFeatures = WasmFeatures(1 << 25);
    /// pause, atomic access to globals, tables, structures, arrays; need SHARED_EVERYTHING_THREADS
    pub const SHARED_ATOMIC_OPERATORS: WasmFeatures = WasmFeatures(1 << 26);
    /// the operators on continuations; they need STACK_SWITCHING too
    pub const STACK_SWITCHING_OPERATORS: WasmFeatures = WasmFeatures(1 << 27);
    /// entries of the import section that have several imports of one module
    pub const COMPACT_IMPORTS: WasmFeatures = WasmFeatures(1 << 28);
    /// What is on by default: the Core Specification 3.0 without its operators on vectors other than `v128.const`; and besides it shared memories.
    pub const STANDARD: WasmFeatures = WasmFeatures(
        WasmFeatures::MUTABLE_GLOBAL.0
            | WasmFeatures::REFERENCE_TYPES.0
            | WasmFeatures::MULTI_VALUE.0
            | WasmFeatures::BULK_MEMORY.0
            | WasmFeatures::SIMD.0
            | WasmFeatures::THREADS.0
            | WasmFeatures::FLOATS.0
            | WasmFeatures::MULTI_MEMORY.0
            | WasmFeatures::EXCEPTIONS.0
            | WasmFeatures::MEMORY64.0
            | WasmFeatures::EXTENDED_CONST.0
            | WasmFeatures::FUNCTION_REFERENCES.0
            | WasmFeatures::GC.0
            | WasmFeatures::GC_TYPES.0,
    );
    /// All that grant something.
    pub(crate) const ALL: WasmFeatures = WasmFeatures(
        WasmFeatures::MUTABLE_GLOBAL.0
            | WasmFeatures::REFERENCE_TYPES.0
            | WasmFeatures::MULTI_VALUE.0
            | WasmFeatures::BULK_MEMORY.0
            | WasmFeatures::SIMD.0
            | WasmFeatures::THREADS.0
            | WasmFeatures::SHARED_EVERYTHING_THREADS.0
            | WasmFeatures::FLOATS.0
            | WasmFeatures::MULTI_MEMORY.0
            | WasmFeatures::EXCEPTIONS.0
            | WasmFeatures::MEMORY64.0
            | WasmFeatures::EXTENDED_CONST.0
            | WasmFeatures::FUNCTION_REFERENCES.0
            | WasmFeatures::GC.0
            | WasmFeatures::GC_TYPES.0
            | WasmFeatures::CUSTOM_PAGE_SIZES.0
            | WasmFeatures::CUSTOM_DESCRIPTORS.0
            | WasmFeatures::STACK_SWITCHING.0
            | WasmFeatures::COMPONENT_MODEL.0
            | WasmFeatures::VECTOR_OPERATORS.0
            | WasmFeatures::ATOMIC_OPERATORS.0
            | WasmFeatures::LEGACY_EXCEPTIONS.0
            | WasmFeatures::WIDE_ARITHMETIC.0
            | WasmFeatures::MEMORY_CONTROL.0
            | WasmFeatures::DESCRIPTOR_OPERATORS.0
            | WasmFeatures::SHARED_ATOMIC_OPERATORS.0
            | WasmFeatures::STACK_SWITCHING_OPERATORS.0
            | WasmFeatures::COMPACT_IMPORTS.0,
    );
}

/// Each feature by its name.
pub(crate) const NAMES: [(&str, WasmFeatures); 29] = [
    ("MUTABLE_GLOBAL", WasmFeatures::MUTABLE_GLOBAL),
    ("REFERENCE_TYPES", WasmFeatures::REFERENCE_TYPES),
    ("MULTI_VALUE", WasmFeatures::MULTI_VALUE),
    ("BULK_MEMORY", WasmFeatures::BULK_MEMORY),
    ("SIMD", WasmFeatures::SIMD),
    ("THREADS", WasmFeatures::THREADS),
    ("SHARED_EVERYTHING_THREADS", WasmFeatures::SHARED_EVERYTHING_THREADS),
    ("FLOATS", WasmFeatures::FLOATS),
    ("MULTI_MEMORY", WasmFeatures::MULTI_MEMORY),
    ("EXCEPTIONS", WasmFeatures::EXCEPTIONS),
    ("MEMORY64", WasmFeatures::MEMORY64),
    ("EXTENDED_CONST", WasmFeatures::EXTENDED_CONST),
    ("FUNCTION_REFERENCES", WasmFeatures::FUNCTION_REFERENCES),
    ("GC", WasmFeatures::GC),
    ("GC_TYPES", WasmFeatures::GC_TYPES),
    ("CUSTOM_PAGE_SIZES", WasmFeatures::CUSTOM_PAGE_SIZES),
    ("CUSTOM_DESCRIPTORS", WasmFeatures::CUSTOM_DESCRIPTORS),
    ("STACK_SWITCHING", WasmFeatures::STACK_SWITCHING),
    ("COMPONENT_MODEL", WasmFeatures::COMPONENT_MODEL),
    ("VECTOR_OPERATORS", WasmFeatures::VECTOR_OPERATORS),
    ("ATOMIC_OPERATORS", WasmFeatures::ATOMIC_OPERATORS),
    ("LEGACY_EXCEPTIONS", WasmFeatures::LEGACY_EXCEPTIONS),
    ("CRATE_LIMITS", WasmFeatures::CRATE_LIMITS),
    ("WIDE_ARITHMETIC", WasmFeatures::WIDE_ARITHMETIC),
    ("MEMORY_CONTROL", WasmFeatures::MEMORY_CONTROL),
    ("DESCRIPTOR_OPERATORS", WasmFeatures::DESCRIPTOR_OPERATORS),
    ("SHARED_ATOMIC_OPERATORS", WasmFeatures::SHARED_ATOMIC_OPERATORS),
    ("STACK_SWITCHING_OPERATORS", WasmFeatures::STACK_SWITCHING_OPERATORS),
    ("COMPACT_IMPORTS", WasmFeatures::COMPACT_IMPORTS),
];

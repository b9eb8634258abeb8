"""The features of include/ruthvelka.h. tools/write_packages.py of the repository writes this file."""
from enum import IntFlag

VERSION = "0.1.0"
LIBRARY_VERSION = 1000


class WasmFeatures(IntFlag):
    """A set of proposals, which modules may use."""

    MUTABLE_GLOBAL = 1 << 0  # mutable globals are imported and exported
    REFERENCE_TYPES = 1 << 1  # values that are references, and more than one table
    MULTI_VALUE = 1 << 2  # more than one result
    BULK_MEMORY = 1 << 3  # passive segments, and the data count section
    SIMD = 1 << 4  # vectors of 128 bits
    THREADS = 1 << 5  # shared memories
    SHARED_EVERYTHING_THREADS = 1 << 6  # types, tables and globals that are shared between threads
    FLOATS = 1 << 7  # floating-point types
    MULTI_MEMORY = 1 << 8  # more than one memory
    EXCEPTIONS = 1 << 9  # tags, and references to exceptions
    MEMORY64 = 1 << 10  # memories and tables whose addresses have 64 bits
    EXTENDED_CONST = 1 << 11  # add, sub and mul of integers in constant expressions
    FUNCTION_REFERENCES = 1 << 12  # references to types by index, and ones that may not be null
    GC = 1 << 13  # recursion groups, sub types, structures and arrays
    GC_TYPES = 1 << 14  # structure, array, continuation types; references but to functions and exceptions
    CUSTOM_PAGE_SIZES = 1 << 15  # memories with a written page size
    CUSTOM_DESCRIPTORS = 1 << 16  # descriptor clauses, struct.new_desc, exact references; see DESCRIPTOR_OPERATORS
    STACK_SWITCHING = 1 << 17  # continuation types, and tags with results; see STACK_SWITCHING_OPERATORS
    COMPONENT_MODEL = 1 << 18  # components, which are not validated
    VECTOR_OPERATORS = 1 << 19  # the operators on vectors, also the relaxed ones; they need SIMD too
    ATOMIC_OPERATORS = 1 << 20  # the atomic operators on memories and atomic.fence; they need THREADS too
    LEGACY_EXCEPTIONS = 1 << 21  # try, catch, catch_all, rethrow and delegate; they need EXCEPTIONS too
    CRATE_LIMITS = 1 << 22  # no proposal: the limits of the Rust crate's readers, for hosts that take modules from strangers
    WIDE_ARITHMETIC = 1 << 23  # sums, differences and products of integers of 128 bits
    MEMORY_CONTROL = 1 << 24  # memory.discard, which gives up the content of pages
    DESCRIPTOR_OPERATORS = 1 << 25  # ref.get_desc, casts and branches by descriptors; they need CUSTOM_DESCRIPTORS too
    SHARED_ATOMIC_OPERATORS = 1 << 26  # pause, atomic access to globals, tables, structures, arrays; need SHARED_EVERYTHING_THREADS
    STACK_SWITCHING_OPERATORS = 1 << 27  # the operators on continuations; they need STACK_SWITCHING too
    COMPACT_IMPORTS = 1 << 28  # entries of the import section that have several imports of one module
    # what is on by default: the Core Specification 3.0 without its operators on vectors other than v128.const; and besides it shared memories
    STANDARD = (
        MUTABLE_GLOBAL | REFERENCE_TYPES | MULTI_VALUE | BULK_MEMORY | SIMD | THREADS | FLOATS | MULTI_MEMORY | EXCEPTIONS | MEMORY64 | EXTENDED_CONST
        | FUNCTION_REFERENCES | GC | GC_TYPES
    )
    # all that grant something
    ALL = (
        STANDARD
        | SHARED_EVERYTHING_THREADS | CUSTOM_PAGE_SIZES | CUSTOM_DESCRIPTORS | STACK_SWITCHING | COMPONENT_MODEL | VECTOR_OPERATORS | ATOMIC_OPERATORS
        | LEGACY_EXCEPTIONS | WIDE_ARITHMETIC | MEMORY_CONTROL | DESCRIPTOR_OPERATORS | SHARED_ATOMIC_OPERATORS | STACK_SWITCHING_OPERATORS | COMPACT_IMPORTS
    )

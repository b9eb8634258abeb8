use crate::error::{BinaryReaderError, Result, Told};
use ruthvelka_sys as sys;
use std::cell::UnsafeCell;
use std::fmt;
use std::rc::Rc;

/// The id of a type. Where a feature lets a type refer to another one, as by default, two ids of one validator are equal exactly where the types are;
/// ids of two validators are never equal.
#[derive(Clone, Copy, Debug, PartialEq, Eq, Hash, PartialOrd, Ord)]
pub struct CoreTypeId(pub(crate) Told, pub(crate) u32);

impl CoreTypeId {
    /// Its number within the validator that gave it.
    pub fn index(&self) -> usize {
        self.1 as usize
    }
}

/// A heap type with no id.
#[derive(Clone, Copy, Debug, PartialEq, Eq, Hash)]
#[allow(missing_docs)]
#[repr(u32)]
pub enum AbstractHeapType {
    Func = sys::HEAP_FUNC,
    Extern = sys::HEAP_EXTERN,
    Any = sys::HEAP_ANY,
    None = sys::HEAP_NONE,
    NoExtern = sys::HEAP_NOEXTERN,
    NoFunc = sys::HEAP_NOFUNC,
    Eq = sys::HEAP_EQ,
    Struct = sys::HEAP_STRUCT,
    Array = sys::HEAP_ARRAY,
    I31 = sys::HEAP_I31,
    Exn = sys::HEAP_EXN,
    NoExn = sys::HEAP_NOEXN,
    Cont = sys::HEAP_CONT,
    NoCont = sys::HEAP_NOCONT,
}

/// What a reference may be to.
#[derive(Clone, Copy, Debug, PartialEq, Eq, Hash)]
pub enum HeapType {
    /// The type with this id, and those below it.
    Concrete(CoreTypeId),
    /// All of a kind.
    Abstract(AbstractHeapType),
}

/// A value type.
#[derive(Clone, Copy, Debug, PartialEq, Eq, Hash)]
#[allow(missing_docs)]
pub enum ValType {
    I32,
    I64,
    F32,
    F64,
    V128,
    /// A reference, which may be null where that is said.
    Ref {
        nullable: bool,
        heap_type: HeapType,
    },
}

/// A handle that holds the types of a module. It is released once, where this is dropped; until then it is on one thread, since it is neither `Send` nor
/// `Sync`, and nothing copies it.
pub(crate) struct Kept {
    // only the library reads and writes it, also where it is lent to be asked something
    place: UnsafeCell<sys::Types>,
    told: Told,
}

impl Kept {
    pub(crate) fn nothing(told: Told) -> Kept {
        Kept { place: UnsafeCell::new(sys::Types::NOTHING), told }
    }

    pub(crate) fn place(&mut self) -> *mut sys::Types {
        self.place.get()
    }
}

impl Drop for Kept {
    fn drop(&mut self) {
        // SAFETY: the handle is written by the library alone, is never copied, and is on the thread that it was made on.
        unsafe { sys::ruthvelka_types_release(self.place.get()) }
    }
}

/// The types of a valid module, and how many it has of each. There is no such value but of a module that was validated. It lives on when its validator
/// is dropped, and stays on one thread; a clone is the same types.
#[derive(Clone)]
pub struct Types {
    kept: Rc<Kept>,
    outcome: sys::Outcome,
    types: Rc<[u32]>,
    functions: Rc<[u32]>,
}

impl fmt::Debug for Types {
    fn fmt(&self, f: &mut fmt::Formatter<'_>) -> fmt::Result {
        f.debug_struct("Types").field("types", &self.types).field("functions", &self.functions).finish_non_exhaustive()
    }
}

impl Types {
    pub(crate) fn read(kept: Kept, outcome: &sys::Outcome) -> Result<Types> {
        let (mut types, mut functions) = (vec![0u32; outcome.types as usize], vec![0u32; outcome.functions as usize]);
        let mut told = sys::Outcome::default();
        // SAFETY: the handle is the library's own, on its thread; each other pointer is of a live slice of that length, or of the outcome.
        let status = unsafe {
            sys::ruthvelka_types_ids(kept.place.get(), &mut told, types.as_mut_ptr(), types.len(), functions.as_mut_ptr(), functions.len())
        };
        if status != sys::STATUS_DONE || (told.types, told.functions) != (outcome.types, outcome.functions) {
            return Err(BinaryReaderError::wrong_call());
        }
        Ok(Types { kept: Rc::new(kept), outcome: *outcome, types: types.into(), functions: functions.into() })
    }

    /// How many types the module has.
    pub fn core_type_count_in_module(&self) -> u32 {
        self.outcome.types
    }

    /// The id of the type with this index.
    ///
    /// # Panics
    ///
    /// Where there is none.
    pub fn core_type_at_in_module(&self, index: u32) -> CoreTypeId {
        CoreTypeId(self.kept.told, self.types[index as usize])
    }

    /// The id of the type of the function with this index.
    ///
    /// # Panics
    ///
    /// Where there is none.
    pub fn core_function_at(&self, index: u32) -> CoreTypeId {
        CoreTypeId(self.kept.told, self.functions[index as usize])
    }

    /// How many functions, imported ones among them; and so on.
    pub fn function_count(&self) -> u32 {
        self.outcome.functions
    }

    /// How many tables.
    pub fn table_count(&self) -> u32 {
        self.outcome.tables
    }

    /// How many memories.
    pub fn memory_count(&self) -> u32 {
        self.outcome.memories
    }

    /// How many globals.
    pub fn global_count(&self) -> u32 {
        self.outcome.globals
    }

    /// How many tags.
    pub fn tag_count(&self) -> u32 {
        self.outcome.tags
    }

    /// How many imports.
    pub fn import_count(&self) -> u64 {
        self.outcome.imports
    }

    /// How many exports.
    pub fn export_count(&self) -> u64 {
        self.outcome.exports
    }

    /// Whether the first type is the second one, or declared to be below it. These types know those of all modules before this one too. It is false
    /// where one of the two isn't known, and where an id is of another validator.
    pub fn id_is_subtype(&self, first: CoreTypeId, second: CoreTypeId) -> bool {
        // SAFETY: the handle is the library's own, on its thread.
        let asked = || unsafe { sys::ruthvelka_types_is_subtype(self.kept.place.get(), first.1, second.1) };
        first.0 == self.kept.told && second.0 == self.kept.told && asked() == sys::YES
    }

    /// The value type as the library has it, unless it has an id of another validator.
    fn sent(&self, ty: ValType) -> Option<sys::ValueType> {
        let (kind, heap, id) = match ty {
            ValType::I32 => (sys::I32, 0, 0),
            ValType::I64 => (sys::I64, 0, 0),
            ValType::F32 => (sys::F32, 0, 0),
            ValType::F64 => (sys::F64, 0, 0),
            ValType::V128 => (sys::V128, 0, 0),
            ValType::Ref { nullable, heap_type } => {
                let kind = if nullable { sys::NULL_OR_REFERENCE } else { sys::REFERENCE };
                match heap_type {
                    HeapType::Abstract(it) => (kind, it as u32, 0),
                    HeapType::Concrete(CoreTypeId(told, id)) if told == self.kept.told => (kind, sys::HEAP_ID, id),
                    HeapType::Concrete(_) => return None,
                }
            }
        };
        Some(sys::ValueType { size: std::mem::size_of::<sys::ValueType>() as u64, kind, heap, id, flags: 0 })
    }

    /// Whether a value of the first type may stand where one of the second is wanted. It is false where an id is of another validator.
    pub fn valtype_is_subtype(&self, first: ValType, second: ValType) -> bool {
        match (self.sent(first), self.sent(second)) {
            // SAFETY: the handle is the library's own, on its thread, and both value types are live.
            (Some(first), Some(second)) => unsafe { sys::ruthvelka_types_matches(self.kept.place.get(), &first, &second) == sys::YES },
            _ => false,
        }
    }

    /// Whether the export of this module with that number may be given for an import of another one, of the same validator. Numbers are as
    /// [`imports_and_exports`](crate::Validator::imports_and_exports) has them, and names aren't compared. It is false where one of the two isn't there.
    /// It takes time that grows with the numbers: to link each import of a module takes the square of how many there are.
    pub fn may_be_given(&self, export: u32, importer: &Types, import: u32) -> bool {
        let ask = |wanted: *mut sys::Types| {
            // SAFETY: both handles are the library's own, on their thread, and two places.
            unsafe { sys::ruthvelka_types_entity_may_be_given(self.kept.place.get(), export, wanted, import) == sys::YES }
        };
        if !Rc::ptr_eq(&self.kept, &importer.kept) {
            return ask(importer.kept.place.get());
        }
        // the library wants two handles
        let mut copy = Kept::nothing(self.kept.told);
        // SAFETY: the one handle holds types, on its thread, and the other one nothing.
        let is_made = unsafe { sys::ruthvelka_types_retain(self.kept.place.get(), copy.place()) } == sys::STATUS_DONE;
        is_made && ask(copy.place())
    }
}

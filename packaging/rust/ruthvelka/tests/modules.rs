//! What is expected follows from the Core Specification.

use ruthvelka::*;
use ruthvelka_sys as sys;

const HEAD: &[u8] = b"\0asm\x01\0\0\0";
const FUNCTIONS: &[u8] = b"\x01\x09\x02\x60\0\0\x60\x01\x7f\x01\x7f"; // (func) and (func (param i32) (result i32))
const IMPORT: &[u8] = b"\x02\x07\x01\x01m\x01f\0\0"; // m.f, of the first type
const ONE: &[u8] = b"\x03\x02\x01\x01"; // a function of the second type
const EXPORT: &[u8] = b"\x07\x05\x01\x01g\0\x01";
const BODY: &[u8] = b"\x0a\x06\x01\x04\0\x20\0\x0b"; // local.get 0
const WRONG_BODY: &[u8] = b"\x0a\x05\x01\x03\0\x01\x0b"; // the result is missing
const STRUCTURES: &[u8] = b"\x01\x09\x02\x5f\x01\x7f\0\x5f\x01\x7f\0"; // one structure type twice
const SUBTYPES: &[u8] = b"\x01\x10\x02\x50\0\x5f\x01\x7f\0\x50\x01\0\x5f\x02\x7f\0\x7e\0"; // (sub (struct i32)) and below it (struct i32 i64)
const SHRINKING: &[u8] = b"\x05\x04\x01\x01\x02\x01"; // a memory with a minimum of 2 and a maximum of 1
const VECTORS: &[u8] = b"\x01\x06\x01\x60\x01\x7b\x01\x7b\x03\x02\x01\0\x0a\x08\x01\x06\0\x20\0\xfd\x4d\x0b"; // v128.not
const TWO_EXPORTS: &[u8] = b"\x03\x03\x02\0\x01\x07\x09\x02\x01a\0\0\x01b\0\x01\x0a\x09\x02\x02\0\x0b\x04\0\x20\0\x0b";

fn module(parts: &[&[u8]]) -> Vec<u8> {
    [&[HEAD], parts].concat().concat()
}

fn whole() -> Vec<u8> {
    module(&[FUNCTIONS, IMPORT, ONE, EXPORT, BODY])
}

#[test]
fn features_are_those_of_the_library() {
    let mut found = WasmFeatures::empty();
    for bit in 0..64 {
        let mut name = [0u8; 64];
        // SAFETY: the pointer is of a live array of that length.
        let length = unsafe { sys::ruthvelka_feature_name(1 << bit, name.as_mut_ptr(), name.len()) };
        let name = std::str::from_utf8(&name[..length]).unwrap();
        assert_eq!(WasmFeatures::from_name(name).map_or(0, |it| it.bits()), if name.is_empty() { 0 } else { 1 << bit });
        found.insert(WasmFeatures::from_name(name).unwrap_or(WasmFeatures::empty()));
    }
    assert!(found.contains(WasmFeatures::all()));
    assert_eq!(WasmFeatures::default(), WasmFeatures::STANDARD);
}

#[test]
fn layouts_are_those_of_the_header() {
    assert_eq!(std::mem::size_of::<sys::Report>(), 80);
    assert_eq!(std::mem::size_of::<sys::Extern>(), 40);
    assert_eq!(std::mem::size_of::<sys::Bytes>(), 16);
    assert_eq!(std::mem::size_of::<sys::Query>(), 24);
    assert_eq!(std::mem::size_of::<sys::Outcome>(), 80);
    assert_eq!(std::mem::size_of::<sys::Allocator>(), 40);
    assert_eq!(std::mem::size_of::<sys::ValueType>(), 24);
    assert_eq!((std::mem::size_of::<sys::Validator>(), std::mem::size_of::<sys::Types>()), (32, 32));
}

#[test]
fn counts() {
    let it = Validator::new().validate_all(&whole()).unwrap();
    assert_eq!((it.core_type_count_in_module(), it.function_count(), it.import_count(), it.export_count()), (2, 2, 1, 1));
    assert_eq!((it.table_count(), it.memory_count(), it.global_count(), it.tag_count()), (0, 0, 0, 0));
    assert_eq!(it.core_function_at(0), it.core_type_at_in_module(0));
    assert_eq!(it.core_function_at(1), it.core_type_at_in_module(1));
    assert_ne!(it.core_function_at(0), it.core_function_at(1));
}

#[test]
fn refusals() {
    let why = validate(&module(&[SHRINKING])).unwrap_err();
    assert!(why.is_refused() && !why.is_out_of_memory() && !why.is_not_checked());
    assert_eq!((why.offset(), why.function(), why.message()), (11, None, "size minimum must not be greater than maximum"));
    assert_eq!(why.to_string(), "size minimum must not be greater than maximum (at offset 0xb)");
    assert_eq!(format!("{why:#}"), why.message());
    assert_eq!(validate(&module(&[FUNCTIONS, IMPORT, ONE, WRONG_BODY])).unwrap_err().function(), Some(1));
    assert!(validate(b"").unwrap_err().is_refused());
}

#[test]
fn features_decide() {
    assert_eq!(validate(&module(&[VECTORS])).unwrap_err().missing_features(), WasmFeatures::VECTOR_OPERATORS);
    let mut features = WasmFeatures::default();
    features.set(WasmFeatures::VECTOR_OPERATORS, true);
    assert!(Validator::new_with_features(features).validate_all(&module(&[VECTORS])).is_ok());
    features.remove(WasmFeatures::SIMD);
    assert!(Validator::new_with_features(features).validate_all(&module(&[VECTORS])).is_err());
}

#[test]
fn long_and_hidden_messages() {
    let name = [b"\x1b[2J\n".as_slice(), &[b'n'; 100]].concat();
    let export = [&[name.len() as u8], &name[..], b"\x02\0"].concat();
    let length = 2 * export.len() + 1;
    let bytes = module(&[b"\x05\x03\x01\0\x01\x07", &[length as u8 | 128, (length >> 7) as u8, 2], &export, &export]);
    let why = validate(&bytes).unwrap_err();
    assert!(why.message().contains(std::str::from_utf8(&name).unwrap()));
    assert!(!why.to_string().chars().any(char::is_control));
}

#[test]
fn ids_compare_across_the_modules_of_one_validator() {
    let mut validator = Validator::new();
    let kept: Vec<Types> = [whole(), module(&[STRUCTURES]), module(&[FUNCTIONS])].iter().map(|it| validator.validate_all(it).unwrap()).collect();
    let other = Validator::new().validate_all(&whole()).unwrap();
    drop(validator);
    assert_eq!(kept[0].core_type_at_in_module(1), kept[2].core_type_at_in_module(1));
    assert_eq!(kept[1].core_type_at_in_module(0), kept[1].core_type_at_in_module(1));
    assert_ne!(kept[0].core_type_at_in_module(0), kept[1].core_type_at_in_module(0));
    assert_ne!(kept[0].core_type_at_in_module(0), other.core_type_at_in_module(0));
    let clone = kept[0].clone();
    drop(kept);
    assert_eq!(clone.core_function_at(1), clone.core_type_at_in_module(1));
}

#[test]
fn subtypes() {
    let mut validator = Validator::new();
    let [early, types, late] = [whole(), module(&[SUBTYPES]), module(&[STRUCTURES])].map(|it| validator.validate_all(&it).unwrap());
    let (above, below) = (types.core_type_at_in_module(0), types.core_type_at_in_module(1));
    assert!(types.id_is_subtype(below, above) && !types.id_is_subtype(above, below) && types.id_is_subtype(above, above));
    assert!(!types.id_is_subtype(below, early.core_type_at_in_module(0)));
    assert!(late.id_is_subtype(below, above) && !early.id_is_subtype(below, above));
}

#[test]
fn value_types() {
    use AbstractHeapType::*;
    let types = validate(&module(&[SUBTYPES])).unwrap();
    let id = |it| HeapType::Concrete(types.core_type_at_in_module(it));
    let (reference, null) = (|heap_type| ValType::Ref { nullable: false, heap_type }, |heap_type| ValType::Ref { nullable: true, heap_type });
    for (first, second, wanted) in [
        (ValType::I32, ValType::I32, true),
        (ValType::I32, ValType::I64, false),
        (ValType::F32, ValType::F64, false),
        (ValType::V128, ValType::V128, true),
        (reference(id(1)), null(id(0)), true),
        (null(id(1)), reference(id(0)), false),
        (reference(id(0)), reference(id(1)), false),
        (reference(id(0)), null(HeapType::Abstract(Struct)), true),
        (reference(id(0)), null(HeapType::Abstract(Func)), false),
        (null(HeapType::Abstract(None)), null(id(1)), true),
        (null(HeapType::Abstract(I31)), null(HeapType::Abstract(Eq)), true),
    ] {
        assert_eq!(types.valtype_is_subtype(first, second), wanted, "{first:?} {second:?}");
    }
}

#[test]
fn entities() {
    let mut validator = Validator::new();
    let parts = [&[FUNCTIONS, TWO_EXPORTS][..], &[FUNCTIONS, IMPORT], &[FUNCTIONS, IMPORT, b"\x07\x05\x01\x01f\0\0"]];
    let [exporter, importer, both] = parts.map(|it| validator.validate_all(&module(it)).unwrap());
    assert_eq!([0, 1, 2].map(|it| exporter.may_be_given(it, &importer, 0)), [true, false, false]);
    assert!(!exporter.may_be_given(0, &importer, 1));
    assert!(both.may_be_given(0, &both, 0) && both.may_be_given(0, &both.clone(), 0));
}

#[test]
fn nothing_of_another_validator_is_accepted() {
    let [own, other] = [(), ()].map(|()| validate(&module(&[SUBTYPES])).unwrap());
    let (one, foreign) = (own.core_type_at_in_module(0), other.core_type_at_in_module(0));
    assert_eq!(one.index(), foreign.index());
    let reference = |it| ValType::Ref { nullable: false, heap_type: HeapType::Concrete(it) };
    for (first, second) in [(one, foreign), (foreign, one), (foreign, foreign)] {
        assert!(!own.id_is_subtype(first, second) && !own.valtype_is_subtype(reference(first), reference(second)));
    }
    assert!(own.id_is_subtype(one, one) && own.valtype_is_subtype(reference(one), reference(one)));
    let parts = module(&[FUNCTIONS, IMPORT, b"\x07\x05\x01\x01f\0\0"]);
    let [own, other] = [(), ()].map(|()| validate(&parts).unwrap());
    assert!(own.may_be_given(0, &own, 0) && !own.may_be_given(0, &other, 0));
}

#[test]
fn a_validator_goes_on_behind_a_body_and_fails_behind_a_section() {
    let mut validator = Validator::new();
    let types = validator.validate_all(&whole()).unwrap();
    assert_eq!(validator.validate_all(&module(&[FUNCTIONS, IMPORT, ONE, WRONG_BODY])).unwrap_err().function(), Some(1));
    validator.reset().unwrap();
    assert_eq!(validator.validate_all(&whole()).unwrap().core_type_at_in_module(0), types.core_type_at_in_module(0));
    assert_eq!(validator.validate_all(&module(&[SHRINKING])).unwrap_err().offset(), 11);
    let why = validator.validate_all(&whole()).unwrap_err();
    assert!(why.is_failed() && !why.is_refused() && validator.reset().unwrap_err().is_failed());
    assert!(types.id_is_subtype(types.core_type_at_in_module(0), types.core_type_at_in_module(0)));
}

/// Whether values of a type may go to other threads, and be used from several: the method of the type itself is there where they may, and hides the
/// other.
struct Of<T>(std::marker::PhantomData<T>);

impl<T: Send> Of<T> {
    fn may_go(&self) -> bool {
        true
    }
}

impl<T: Sync> Of<T> {
    fn may_be_shared(&self) -> bool {
        true
    }
}

trait Stays {
    fn may_go(&self) -> bool {
        false
    }
    fn may_be_shared(&self) -> bool {
        false
    }
}

impl<T> Stays for Of<T> {}

#[test]
fn handles_stay_on_one_thread() {
    let (validator, types, error) =
        (Of::<Validator>(Default::default()), Of::<Types>(Default::default()), Of::<BinaryReaderError>(Default::default()));
    assert!(!validator.may_go() && !validator.may_be_shared() && !types.may_go() && !types.may_be_shared());
    assert!(error.may_go() && error.may_be_shared());
}

#[test]
fn names() {
    let it = Validator::new().imports_and_exports(&whole()).unwrap();
    let imports: Vec<_> = it.imports.iter().map(|it| (&*it.module, &*it.name, it.kind)).collect();
    let exports: Vec<_> = it.exports.iter().map(|it| (&*it.name, it.kind)).collect();
    assert_eq!(imports, [("m", "f", ExternalKind::Func)]);
    assert_eq!(exports, [("g", ExternalKind::Func)]);
    assert_ne!(it.imports[0].type_id.unwrap(), it.exports[0].type_id.unwrap());
}

#[test]
fn lists() {
    let modules = [whole(), module(&[STRUCTURES]), module(&[FUNCTIONS]), module(&[SHRINKING]), whole()];
    let modules: Vec<&[u8]> = modules.iter().map(|it| &it[..]).collect();
    let results = validate_list(&modules, WasmFeatures::default()).unwrap();
    let types: Vec<&Types> = results[..3].iter().map(|it| it.as_ref().unwrap()).collect();
    assert_eq!(types[0].core_type_at_in_module(1), types[2].core_type_at_in_module(1));
    assert_ne!(types[0].core_type_at_in_module(0), types[1].core_type_at_in_module(0));
    assert_eq!(results[3].as_ref().unwrap_err().offset(), 11);
    assert!(results[4].as_ref().unwrap_err().is_not_checked());
    assert!(validate_list(&[], WasmFeatures::default()).unwrap().is_empty());
    assert_eq!(validate_list(&[b""], WasmFeatures::default()).unwrap().len(), 1);
}

#[test]
fn questions() {
    let (exporter, importer) = (module(&[FUNCTIONS, TWO_EXPORTS]), module(&[FUNCTIONS, IMPORT]));
    let given = |it| Query::MayBeGiven { export: (0, it), import: (1, 0) };
    let same = |it| Query::IsSubtype { sub: (0, 1), sup: (1, it) };
    let answers = ask(&[&exporter, &importer], WasmFeatures::default(), &[given(0), given(1), given(2), same(0), same(1), same(2)]).unwrap();
    use Answer::*;
    assert_eq!(answers, [Yes, No, Unknown, No, Yes, Unknown]);
}

"""What sources say in several places and have to say alike: each list of features, and each limit, which definitions have once and by its name."""
import re

from docs_counts import constant, flags_of

RECORD = "crates/wasm_spec/specs/Features.antt"
WEIGHTS = "crates/wasm_spec_rules/specs/FeatureFlags.antt"
TESTS = "crates/wasm_readers_features/specs/ProposalFlags.antt"
HELP = "bin/wasm-check.txt"
MUTATIONS = "tools/shape_mutations.py"
NAMES = "crates/wasm_spec/specs/Limits.antt"
# The law that says the numbers of `CRATE_LIMITS` again, so that another number there is refused.
AGAIN = "crates/wasm_spec_rules/specs/LimitLaws.antt"

# By the name of a limit in definitions, the constant that the code compares with, and its file.
CONSTANTS = {
    "most_types": ("wasm_validator_core/src/limits.rt", "MAX_TYPES"),
    "most_ancestors": ("wasm_validator_type_checks/src/subtypes.rt", "MAX_WASM_SUBTYPING_DEPTH"),
    "most_imports": ("wasm_validator_core/src/limits.rt", "MAX_IMPORTS"),
    "most_functions": ("wasm_validator_core/src/limits.rt", "MAX_FUNCTIONS"),
    "most_tables": ("wasm_validator_core/src/limits.rt", "MAX_TABLES"),
    "most_memories": ("wasm_validator_core/src/limits.rt", "MAX_MEMORIES"),
    "most_globals": ("wasm_validator_core/src/limits.rt", "MAX_GLOBALS"),
    "most_tags": ("wasm_validator_core/src/limits.rt", "MAX_TAGS"),
    "most_exports": ("wasm_validator_core/src/limits.rt", "MAX_EXPORTS"),
    "size_limit": ("wasm_validator_checks/src/entities.rt", "MAX_EFFECTIVE_SIZE"),
    "most_elements": ("wasm_validator_core/src/limits.rt", "MAX_ELEMENT_SEGMENTS"),
    "most_items": ("wasm_validator_segments/src/lists.rt", "MAX_ITEMS"),
    "most_segments": ("wasm_validator_core/src/limits.rt", "MAX_DATA_SEGMENTS"),
    "most_body_bytes": ("wasm_validator_sections/src/code_state.rt", "MAX_FUNCTION_SIZE"),
    "most_locals": ("wasm_typing_stacks/src/locals.rt", "MAX_LOCALS"),
    "most_params": ("wasm_validator_resources/src/composite_types.rt", "MAX_WASM_FUNCTION_PARAMS"),
    "most_results": ("wasm_validator_resources/src/composite_types.rt", "MAX_WASM_FUNCTION_RETURNS"),
    "most_fields": ("wasm_validator_resources/src/composite_types.rt", "MAX_WASM_STRUCT_FIELDS"),
    "most_clauses": ("wasm_typing_blocks/src/tries.rt", "MAX_WASM_CATCHES"),
    "most_name_bytes": ("wasm_validator_checks/src/names.rt", "MAX_STRING_SIZE"),
}
# A number from here on is a limit's, and stands for nothing else in definitions and proofs.
SMALLEST = 50_000


def check_lists(tree):
    """Each list of features in the sources has each feature once, with its bit."""
    flags = {name.lower(): bit for name, bit in flags_of(tree).items()}
    weights = {name: int(bit) for name, bit in re.findall(r"(\w+) = has_flag (\d+) flags", tree.read(WEIGHTS))}
    tests = {name: int(bit) for name, bit in re.findall(r"(?m)^(\w+)_on = has_flag (\d+)$", tree.read(TESTS))}
    record = re.findall(r"(?m)^  pub (\w+) : Bool$", tree.read(RECORD))
    for path, found in ((WEIGHTS, weights), (TESTS, tests)):
        if found != flags:
            yield f"{path}: features with other bits than they have: {' '.join(sorted({it for it, _ in set(found.items()) ^ set(flags.items())}))}"
    if sorted(record) != sorted(flags):
        yield f"{RECORD}: the record hasn't each feature once"
    listed = re.findall(r"(?m)^Features that .*:\n((?:  .*\n)+)", tree.read(HELP))
    if sorted(" ".join(listed).split()) != sorted(flags):
        yield f"{HELP}: the help lists not each feature once"
    proposals = re.search(r"(?s)^PROPOSALS = '''(.*?)'''", tree.read(MUTATIONS), re.M)[1].split()
    if sorted(proposals) != sorted({*flags} - {"crate_limits"}):
        yield f"{MUTATIONS}: PROPOSALS hasn't each proposal once"


def check_limits(tree):
    """Each limit has its number once in definitions, by a name whose constant has the same number, and no proof has the number."""
    values = {name: int(number) for name, number in re.findall(r"(?m)^(\w+)(?: F)? = (?:if F\.\w+ then )?(\d+)", tree.read(NAMES))}
    for name in sorted({*values} ^ {*CONSTANTS}):
        yield f"{NAMES}: {name} stands here or in tools/docs_lists.py alone"
    for name in sorted({*values} & {*CONSTANTS}):
        file, word = CONSTANTS[name]
        if constant(tree, f"crates/{file}", word) != values[name]:
            yield f"{NAMES}: {name} isn't {word} of crates/{file}"
    numbers = [str(it) for it in sorted({*values.values()}) if it >= SMALLEST]
    number = re.compile(rf"(?<![\w.])(?:{'|'.join(numbers)})(?!\w)")
    for path in tree.files("crates", ending=".antt"):
        text = tree.read(path) if path not in (NAMES, AGAIN) and re.search(r"/(?:specs|proofs)/", path) else ""
        # hardly any file has one of them
        for at, row in enumerate(text.split("\n"), 1) if any(it in text for it in numbers) else []:
            if not row.lstrip().startswith("--") and number.search(row):
                yield f"{path}:{at}: a limit by its number: {NAMES} has its name"

"""The conditions of calls in words: each `requires` clause of a public function by its form. A form without words is printed as it is written.

A row is a pattern for a whole clause, and what it means for a caller, where `{0}` is the first thing that the pattern picks out. The definitions
that clauses name are those of the crates, which docs/DEFINITIONS.md explains."""
import re

KINDS = {"elements": "an element segment", "functions": "a function", "globals": "a global", "memories": "a memory", "tables": "a table", "tags": "a tag", "types": "a type"}
LIST = r"(?:\(shown_by self\.now\)\.list|self\.now|self\.old|types\.now)"

CONDITIONS = [
    # what a list of types has
    (rf"(\w+)\.index < length \(types_in {LIST}\)", "the list has the type `{0}`"),
    (rf"(\w+)\.index < length {LIST}\.groups", "the list has the group `{0}`"),
    (r"Is(?:Ref|Val|Heap)Over \(length \(types_in self\.now\)\) (\w+)(?:\.now)?", "the list has each type whose id is in `{0}`"),
    (r"IsEntityOver \(length \(types_in self\.now\)\) \(entity_of (\w+)\)", "the list has each type whose id is in `{0}`"),
    (r"IsKnownIn self\.now\.groups group\.index index", "`index` is an id of the list, or a position in the group"),
    (r"All \(IsKnown \(length \(types_in self\.old\)\) 1\) .*", "each reference in `signature` is an id of the list, or the position 0 in its own group"),
    (r"IsListable \(length \(types_in self\.old\)\) .*", "the types refer only to types of the list and to one another, and extend only earlier ones"),
    (r"Are(?:Held|IdsOf) .*", "the list has the types of the module"),
    (r"All \(λ \(?id(?: : CoreTypeId\))?\. id(?:\.index)? < length \(types_of_list \w+(?:\.old)?\)\) .*", "the list has the types of the module"),
    (r"AreValid \(features_of features\) .*", "the types of the list are valid with these features"),
    (r"IsTrue \w+\.old\.is_open", "the list is open"),
    (r"IsOpenFor features list\.old", "the list is open, and canonicalizes references where these features ask for it"),
    (r"types\.old\.is_canonical ≡ canonical \(features_of features\)", "the list canonicalizes references where these features ask for it"),
    (r"is_canonical ≡ self\.old\.is_canonical", "the list canonicalizes references just where `is_canonical` is true"),
    (r"is_canonical ≡ false → 0 < length group\.types", "the group has a type where `is_canonical` is false"),
    (r"has_form \(rec_of group\) ≡ true", "a group that isn't written with `rec` has one type"),
    (r"IsSome \(depth_of self\.now\.depths (\w+)\.index\)", "the list keeps the depth of `{0}`"),
    (r"depth_of self\.old\.depths (\w+)\.index ≡ None", "the list keeps no depth of `{0}` yet"),
    (r"IsDepth \(declares self\.old\.groups\) (\w+)\.index depth", "`depth` is the number of proper ancestors of `{0}`"),
    (r"AreByIds list\.groups types", "`types` are those of the list, with ids for positions in groups"),
    (r"AreFirstByIds list\.now\.groups (\w+)\.old(?:\.types)?", "the list is that of the calls before, with or without further types"),
    (r"module_of (?:index|\(index_of index\)) ≡ None", "`index` isn't a module's type index"),
    (r"(?:List)?[sS]tands types\.now\.groups (\w+)(?:\.rec_group\.index .*)?", "the indices in `{0}` are ids of the list, or positions in its group"),
    # what a module has
    (r"index < length (?:\(shown_by self\.now\)\.spaces|self\.now)\.(\w+)", "there is {kind} of this index"),
    (r"type_index < length self\.old\.types", "there is a type of this index"),
    (r"IsAmong self\.old\.types \(entity_of entity\)", "the types whose ids are in `entity` are those of the module"),
    (r"is_exported self\.old\.exports name\.now ≡ false", "no export has this name yet"),
    (r"IsWritten(?:Heap|Val|Instruction) .*", "each index of a type in it is a type index of the module"),
    (r"IsSome \(sub_of_id \(context self\.now\) id\)", "the look-ups know the id"),
    (r"IsSome \(top_of_heap .*", "the look-ups know the type that it names"),
    (r"IsKnown(?:In)? \(asked self\.now\) .*", "the look-ups know the id in it"),
    (r"IsSome \(function_in \(T\.context _?resources\.now\) (\w+)\)", "`{0}` is the index of a function type"),
    (r"Some \(sub_of (\w+)\.now\) ≡ sub_in \(T\.context _?resources\.now\) type_index", "`{0}` is the type with index `type_index`"),
    (r"self\.old\.(?:validator\.)?failed ≡ false", "the validator hasn't failed"),
    (r"AreIn self\.now\.groups (\w)_group\.index .*", "each reference in `{0}` is an id of the list, or a position in the group `{0}_group`"),
    # how many there are
    (r"length self\.old\.(\w+) \+ 1 < 2 \^ 32", "there are fewer {0} than 2^32 - 1"),
    (r"length \(ids self\.now\) < 2 \^ 32", "there are fewer types than 2^32"),
    (r"length \(ids self\.old\) \+ 1 < 2 \^ 32", "there are fewer types than 2^32 - 1"),
    (r"length \(ids self\.old\) \+ length \(ids_left elements\) < 2 \^ 32", "with these there are fewer types than 2^32"),
    (r"length \(M\.ids target\.old\) \+ length group\.types < 2 \^ 31", "with those of the group there are fewer types than 2^31"),
    (r"length ids\.now \+ count < 2 \^ 32", "with those of the group there are fewer types than 2^32"),
    (r"length ids\.now < 2 \^ 31", "there are fewer `ids` than 2^31"),
    (r"ids\.now\.(start|end)\.index < 2 \^ 32", "the {0} of the range is below 2^32"),
    (r"size(?: self\.now)? < 2 \^ 24", "the size is below 2^24"),
    (r"count\.old\.links < 2 \^ 63", "the count is below 2^63"),
    (r"(?:offset_of self|original_offset) \+ length (\w+)\.now < 2 \^ 64", "the offset behind the last of `{0}` is below 2^64"),
    (r"IsSmall self\.now", "its ids are below `MAX_IDS`, and its group has at most so many types"),
    (r"self\.now\.end ≡ length self\.now\.ids\.now \+ length types\.items", "there are as many `types` as it was made for"),
    # values
    (r"Is(Func|Array|Struct) self\.now\..*", "it is {form} type"),
    (r"is_owned self\.old ≡ true", "the value is owned"),
    (r"may_reset (\w+)\.old ≡ true", "`can_reset` is true of it"),
    (r"SameInput self\.old ahead\.now", "`ahead` reads the same bytes"),
    (r"F\.pre f x\.inner", "the conditions of the function hold of the part"),
    (r"\(r : T\) → T\.is_clone .*", "a clone of the look-ups has their context"),
]


def in_words(clause):
    """What a clause asks of a caller."""
    for pattern, words in CONDITIONS:
        found = re.fullmatch(pattern, clause)
        if found:
            first = found[1] if found.re.groups and found[1] else ""
            form = {"Func": "a function", "Array": "an array", "Struct": "a structure"}.get(first)
            return words.format(first.replace("_", " ") if "there are fewer {0}" in words else first, kind=KINDS.get(first), form=form)
    return f"`{clause}`"


def conditions(head):
    """The conditions of a function in one sentence, from its signature and its `requires` clauses, or nothing."""
    text = " ".join(head.split())
    clauses = re.findall(r"requires (?:\w+ )?\{ (.*?) \}(?= requires|$)", text)
    words = list(dict.fromkeys(in_words(it) for it in clauses))
    return f"**{'Conditions' if len(words) > 1 else 'Condition'}:** {'; '.join(words)}." if words else ""

"""The checks on documents that are written by hand. Each takes the files of the repository, and gives what a document says that they don't.

What is checked is names, files and numbers; whether a sentence is true is for its reader."""
from docs_code import check_crates, check_definitions, check_functions, check_names, check_rules, check_theorem
from docs_counts import check_code, check_counts, check_features, check_versions
from docs_files import check_links, check_machines, check_options, check_paths, check_width, check_words
from docs_lists import check_limits, check_lists
from docs_specification import check_specification

CHECKS = {
    "functions": check_functions,
    "definitions": check_definitions,
    "names": check_names,
    "paths": check_paths,
    "options": check_options,
    "links": check_links,
    "machines": check_machines,
    "width": check_width,
    "words": check_words,
    "code": check_code,
    "counts": check_counts,
    "features": check_features,
    "lists": check_lists,
    "limits": check_limits,
    "crates": check_crates,
    "rules": check_rules,
    "theorem": check_theorem,
    "versions": check_versions,
    "specification": check_specification,
}

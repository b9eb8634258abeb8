# fish completion for wasm-check

# Each word that may stand behind the last comma, with what stands before it.
function __wasm_check_words
# BEGIN features
set -l features (string split -n ' ' -- (string replace -a \n ' ' '
    mutable_global reference_types multi_value bulk_memory simd threads shared_everything_threads floats multi_memory
    exceptions memory64 extended_const function_references gc gc_types custom_page_sizes custom_descriptors stack_switching
    component_model vector_operators atomic_operators legacy_exceptions crate_limits wide_arithmetic memory_control
    descriptor_operators shared_atomic_operators stack_switching_operators compact_imports
'))
# END features
    set -l token (string replace -r '^--features=' '' -- (commandline -ct))
    set -l before (string match -r '.*,' -- $token)
    printf "$before%s\n" default all wasm3 +$features -$features
end

complete -c wasm-check -s r -l recursive -d 'check the files in and below folders'
complete -c wasm-check -l features -x -a '(__wasm_check_words)' -d 'features that modules may use'
complete -c wasm-check -l shared -d 'check all files by one validator, so that ids compare'
complete -c wasm-check -l json -d 'print a JSON object on each line'
complete -c wasm-check -l types -d 'print the types of valid modules, their imports, exports and index spaces'
complete -c wasm-check -l explain -d 'print the section and the bytes at which a module is refused'
complete -c wasm-check -l summary -d 'print at the end how many files ended in which way'
complete -c wasm-check -l color -x -a 'auto always never' -d 'color verdicts'
complete -c wasm-check -l quiet -d 'print nothing on standard output'
complete -c wasm-check -s h -l help -d 'print help'
complete -c wasm-check -s V -l version -d 'print the version'

# bash completion for wasm-check

# BEGIN features
_wasm_check_features='
    mutable_global reference_types multi_value bulk_memory simd threads shared_everything_threads floats multi_memory
    exceptions memory64 extended_const function_references gc gc_types custom_page_sizes custom_descriptors stack_switching
    component_model vector_operators atomic_operators legacy_exceptions crate_limits wide_arithmetic memory_control
    descriptor_operators shared_atomic_operators stack_switching_operators compact_imports
'
# END features

# Completes the last of the words that commas part: what stands before it is put in front of each answer.
_wasm_check_list() {
    local before='' names
    case $1 in *,*) before=${1%,*}, ;; esac
    names="default all wasm3 $(printf '+%s ' $_wasm_check_features)$(printf -- '-%s ' $_wasm_check_features)"
    mapfile -t COMPREPLY < <(compgen -P "$before" -W "$names" -- "${1##*,}")
    compopt -o nospace
}

_wasm_check() {
    local word=${COMP_WORDS[COMP_CWORD]} last=${COMP_WORDS[COMP_CWORD-1]}
    COMPREPLY=()
    # `--features=LIST` is three words, where = parts words
    if [ "$word" = = ] && [ "$last" = --features ]; then
        _wasm_check_list ''
    elif [ "$last" = --features ] || { [ "$last" = = ] && [ "${COMP_WORDS[COMP_CWORD-2]}" = --features ]; }; then
        _wasm_check_list "$word"
    elif [ "$word" = = ] && [ "$last" = --color ]; then
        COMPREPLY=(auto always never)
    elif [ "$last" = --color ] || { [ "$last" = = ] && [ "${COMP_WORDS[COMP_CWORD-2]}" = --color ]; }; then
        mapfile -t COMPREPLY < <(compgen -W 'auto always never' -- "$word")
    elif [[ $word == -* ]]; then
        mapfile -t COMPREPLY < <(compgen -W '--recursive --features --shared --json --types --explain --summary --color --quiet --help --version' -- "$word")
    else
        compopt -o filenames
        mapfile -t COMPREPLY < <(compgen -f -X '!*.wasm' -- "$word"; compgen -d -- "$word")
    fi
}

complete -F _wasm_check wasm-check

# What bin/wasm-validate, bin/wasm-check, bin/prove, bin/build-c and tools/run_unproved share: the sources of a program, the programs that were
# built of them, the kit, and how a program is run. Each sets `top` first.

# Sets which program is meant: its crate, its name, and where those that were built are kept: in the folder that RUTHVELKA_CACHE names, or in `out`.
choose_program() {
    crate=$1
    name=${crate//_/-}
    built=${RUTHVELKA_CACHE:-$top/out}/$name
}

choose_program wasm_validate

# A signal ends what was started here, and then the call. `rt` is started by `setsid`, so that a signal from the keyboard doesn't reach it too: a
# second one would cut off what it does at the first.
trap 'end_with 129' HUP
trap 'end_with 130' INT
trap 'end_with 143' TERM

end_with() {
    local it
    trap '' HUP INT TERM PIPE
    for it in $(jobs -pr); do kill -TERM "$it" 2>/dev/null; done
    if [ -n "${room:-}" ]; then echo "${0##*/}: stopped by a signal; its temporary files are being removed" >&2; fi
    wait
    exit "$1"
}

# Makes `room`, a folder that is removed when the call ends. What a signal has ended may still write for a moment.
make_room() {
    room=
    trap 'rm -rf "$room" 2>/dev/null || { sleep 1; rm -rf "$room"; }' EXIT
    room=$(mktemp -d) || exit 2
}

# Sets `cc` to the C compiler that CC names, a command or one with options.
find_compiler() {
    cc=("${CC:-gcc}")
    if ! command -v "${cc[0]}" >/dev/null; then read -ra cc -d '' <<<"$CC"; fi
    if [ ${#cc[@]} -eq 0 ]; then cc=(gcc); fi
}

# Sets the kit's folder and what it says it is, both empty where its command isn't in PATH.
look_for_kit() {
    local command
    kit='' kit_is=''
    hash rt 2>/dev/null || return
    command=$(readlink -f "${BASH_CMDS[rt]}")
    kit=${command%/*/*}
    read -r kit_is 2>/dev/null <"$kit/KIT-ID" || kit_is=$(rt version | head -n 1)
    kit_is="$kit $kit_is"
}

# The same for the script of this name, which ends without the kit.
find_kit() {
    look_for_kit
    if [ -z "$kit" ]; then
        echo "$1: rt, the command of the Rattle kit, is not in PATH, and builds what is not built yet" >&2
        exit 2
    fi
}

# The crates of the program, or of the crates that are named, one on a line, lowest first.
crates_of_program() {
    awk -v tops="${*:-$crate}" '
        { sub(/#.*/, "") }
        /^[a-z0-9_]+[^:]*:/ { name = $1; sub(/:.*/, "", name); given[name] = 1; sub(/^[^:]*:/, ""); uses[name] = $0 }
        function visit(name, names, count, i) {
            if (!(name in given) || name in seen) return
            seen[name] = 1
            count = split(uses[name], names, " ")
            for (i = 1; i <= count; i++) visit(names[i])
            print name
        }
        END { count = split(tops, chosen, " "); for (i = 1; i <= count; i++) visit(chosen[i]) }' "$top/crates.txt"
}

# The places of the sources of a program of this kind, from the top: one that is compiled is made of code alone, and one that is proved of what is
# stated and proved of it too.
places_of_sources() {
    local parts='crates/&/src'
    if [ "$1" = proved ]; then parts='crates/&/src crates/&/specs crates/&/proofs'; fi
    echo crates.txt $(crates_of_program | sed "s,.*,$parts,")
}

# A checksum of the sources of a program of this kind, with their places.
sum_of_sources() {
    (
        cd "$top" || exit
        find -L $(places_of_sources "$1") -type f -print0 2>/dev/null | LC_ALL=C sort -z | xargs -0 sha256sum | sha256sum | cut -d' ' -f1
    )
}

# Prints what tells without reading them whether sources in these places are as before: the name, size, number and times of each file. A file that
# changes gets another time of change, which no program can choose; one that is added, removed or moved makes another list. In front stand the sum
# and the places, so that the whole can be compared with what was kept.
list_sources() {
    printf '%s\n%s\n' "$1" "$2"
    cd "$top" && exec find -L $2 -type f -printf '%p %s %i %T@ %C@\n' 2>/dev/null
}

# Sets `sum` to the checksum of the sources of a program of this kind. They are read only where their list isn't the one that was kept with the sum,
# which takes a fraction of the time. Two changes may be so near that the file system's clock doesn't tell them apart: so the sum isn't kept where a
# file changed in the last two seconds, or has a time to come.
find_sum() {
    local places seen=$built/$1.seen now=$EPOCHSECONDS
    if { read -r sum && read -r places; } 2>/dev/null <"$seen" && list_sources "$sum" "$places" | cmp -s - "$seen"; then return; fi
    places=$(places_of_sources "$1")
    (list_sources '' "$places" >"$seen.$$") 2>/dev/null
    sum=$(sum_of_sources "$1")
    if [ -e "$seen.$$" ] && list_sources '' "$places" | cmp -s - "$seen.$$" && awk -v last=$((now - 2)) 'NR > 2 && $NF >= last { exit 1 }' "$seen.$$"; then
        { echo "$sum" && tail -n +2 "$seen.$$"; } >"$seen.$$.new" && mv "$seen.$$.new" "$seen"
    fi
    rm -f "$seen.$$" "$seen.$$.new"
}

# Whether the program of this kind, proved or unproved, stands built of the sources with this sum, by the kit that is in PATH, if one is.
is_built() {
    local kept_sum='' kept_kit=''
    [ -x "$built/$1" ] && [ -n "$2" ] || return
    read -r kept_sum kept_kit 2>/dev/null <"$built/$1.sum"
    [ "$kept_sum" = "$2" ] && { [ -z "$kit" ] || [ "$kept_kit" = "$kit_is" ]; }
}

# Keeps a program of this kind, of the sources with this sum. A call that is running keeps its old file.
keep() {
    mkdir -p "$built" && rm -f "$built/$2.sum"
    cp "$1" "$built/$2.new" && chmod +x "$built/$2.new" && mv "$built/$2.new" "$built/$2" && echo "$3 $kit_is" >"$built/$2.sum"
}

# Ends the script of this name where the program can't be kept.
need_place() {
    if ! mkdir -p "$built" 2>/dev/null || [ ! -w "$built" ]; then
        echo "$1: the program is kept in $built once it is built, but that folder can't be written: set RUTHVELKA_CACHE to one that can" >&2
        exit 2
    fi
}

# Lets one call at a time build a program of this kind. Another says this line, and waits. Jobs and programs are started with `9>&-`, since the lock
# is free once nobody has file 9 open.
one_at_a_time() {
    exec 9>"$built/$1.lock" || return
    if ! flock -n 9; then
        echo "$2" >&2
        flock 9 &
        wait $!
    fi
}

# Copies these crates and all below them into a folder, as a repository of their own, without rows, tests and wrong bodies.
copy_crates() {
    local folder=$1 it part parts=()
    shift
    mkdir -p "$folder/.git" && cp "$top/HANDLES" "$folder" || return 1
    for it in $(crates_of_program "$@"); do
        grep -E "^$it( [^:]*)?:" "$top/crates.txt" >>"$folder/crates.txt" || return 1
        for part in "crates/$it"/{src,specs,proofs,data,args,status,stdin,stdout}; do
            if [ -e "$top/$part" ]; then parts+=("$part"); fi
        done
    done
    (cd "$top" && cp -r --parents "${parts[@]}" "$folder")
}

# A folder that looks like the kit, but for its compiler, which is called for each module that `rt try` makes. Ours compiles the one of the whole
# program with optimization and without the sanitizer, and ends the try there; or, where `module` is asked for, only keeps what it was to compile.
make_kit() {
    mkdir -p "$1/bin" "$1/toolchain/bin" || return 1
    ln -s "$kit"/* "$1" 2>/dev/null
    ln -s "$kit"/bin/* "$1/bin"
    ln -s "$kit"/toolchain/* "$1/toolchain" 2>/dev/null
    ln -s "$kit"/toolchain/bin/* "$1/toolchain/bin"
    # A script finds its kit by its own place.
    rm -f "$1/bin/rt" "$1/bin/rtlib.py" "$1/bin/rattle" "$1/toolchain/bin/clang"
    cp "$kit/bin/rt" "$kit/bin/rtlib.py" "$1/bin" || return 1
    # The prover would only look for names that a check refuses, and take as long as what translates.
    printf '#!/bin/sh\nexit 0\n' >"$1/bin/rattle" && chmod +x "$1/bin/rattle" || return 1
    cat >"$1/toolchain/bin/clang" <<CLANG
#!/usr/bin/env bash
words=()
is_whole=
for word in "\$@"; do
    case "\$word" in
    -fsanitize=address) is_whole=yes ;;
    -O0) words+=(-O2) ;;
    *) words+=("\$word") ;;
    esac
done
if [ -z "\$is_whole" ]; then exec "$kit/toolchain/bin/clang" "\$@"; fi
if [ "${2:-}" = module ]; then cp module.bc "$1/program.bc"; else "$kit/toolchain/bin/clang" "\${words[@]}" && cp module.o "$1/program.o"; fi
exit 1
CLANG
    chmod +x "$1/toolchain/bin/clang"
}

# Compiles the program of a crate without its proofs, as `program` in this folder, which gets a log, `try.log`. Where the crate's folder can't be
# written, a copy of the crates is compiled.
compile_crate() {
    local crate=$1 room=$2 from=$top
    make_kit "$room" >"$room/try.log" 2>&1 || return 1
    if [ ! -w "$top/crates/$crate" ]; then
        from=$room/repo
        copy_crates "$from" "$crate" >>"$room/try.log" 2>&1 || return 1
    fi
    (cd "$from/crates/$crate" && exec setsid "$room/bin/rt" try) >>"$room/try.log" 2>&1 </dev/null 9>&- &
    wait $!
    [ -s "$room/program.o" ] || return 1
    "$kit/bin/rattle-link" --target x86_64-unknown-linux-gnu --toolchain "$kit/toolchain" -o "$room/program" "$room/program.o" \
        "$kit/c/libos_c.a" "$kit/c/liblibc_c.a" >>"$room/try.log" 2>&1 9>&-
}

# Runs the program of the sources as they are now, if one is built.
run_built() {
    local kind
    for kind in proved unproved; do
        if [ -x "$built/$kind" ]; then
            find_sum "$kind"
            if is_built "$kind" "$sum"; then exec "$built/$kind" "$@" 9>&-; fi
        fi
    done
}

# Whether the compiled program ends with this status on a file of these bytes.
ends_with() {
    local ended
    printf "$2" >"$room/trial.wasm"
    "$room/program" "$room/trial.wasm" >>"$room/try.log" 2>&1 9>&-
    ended=$?
    if [ "$ended" -ne "$1" ]; then
        echo "on a file of the bytes $2 the program ended with status $ended in place of $1" >>"$room/try.log"
        return 1
    fi
}

# Compiles the program without its proofs, and tries it on a module that is valid and on one that isn't.
compile() {
    compile_crate "$crate" "$room" && ends_with 0 '\0asm\1\0\0\0' && ends_with 1 '\0asm\1\0\0\0\1'
}

# Has `rt try` run the program, which is slow. It runs in a new folder, into which a file is copied under the name that the caller gives, if that
# name leads down from the caller's folder and isn't one that rt uses itself. Any other file is named from the root. An option, and a word that names
# nothing, stay as they are.
run_by_rt() {
    local it words=() files=()
    for it in "$@"; do
        case "/$it/" in
        /-*) files+=("$it") ;;
        //* | */../* | *=* | /program/* | /stdin/* | /stdout/* | /stderr/*) files+=("$(realpath -m -- "$it")") ;;
        *)
            files+=("$it")
            if [ -f "$it" ]; then words+=(--data "$it=$(realpath -- "$it")"); fi
            ;;
        esac
        if [ "${files[-1]}" != "$it" ]; then LC_ALL=C printf '%s: the line of %q will begin with %q\n' "$name" "$it" "${files[-1]}" >&2; fi
    done
    (cd "$top/crates/$crate" && exec setsid rt try "${words[@]}" -- "${files[@]}") </dev/null 9>&- &
    wait $!
}

# Runs the program, on the caller's words: the one that bin/prove has proved and built of these sources, else one that is compiled from the same
# sources without their proofs, which takes two to five minutes the first time. docs/DECISIONS.md says what this rests on.
run_program() {
    look_for_kit
    run_built "$@"
    find_kit "$name"
    need_place "$name"
    if one_at_a_time unproved "$name: another call is compiling the program, and this one waits for it"; then
        # while this call waited, a program may have been built
        run_built "$@"
        make_room
        sum=$(sum_of_sources unproved)
        echo "$name: compiling the program, which takes two to five minutes, once" >&2
        if ! compile; then
            echo "$name: the program could not be compiled by itself; this is the end of its log, $built/try.log:" >&2
            cp "$room/try.log" "$built/try.log"
            tail -n 5 "$room/try.log" >&2
        elif [ "$(sum_of_sources unproved)" != "$sum" ]; then
            echo "$name: the sources changed while they were compiled: call it again" >&2
            exit 2
        elif keep "$room/program" unproved "$sum"; then
            echo "$name: compiled; its proofs were not run here: bin/prove runs them" >&2
            rm -rf "$room"
            exec "$built/unproved" "$@" 9>&-
        fi
        exec 9>&-
    fi
    echo "$name: rt try runs the program, which is slow" >&2
    run_by_rt "$@"
}

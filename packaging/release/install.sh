#!/bin/sh
# install.sh [--prefix FOLDER] [--uninstall]: installs the programs, the library, its header and the manual below FOLDER, /usr/local if none is named.
# DESTDIR is put before it, as packagers expect. Nothing outside is written.
#
# share/doc/ruthvelka/FILES says what was installed, with a checksum of each file. A file that is there and isn't ours by that list is never replaced:
# wabt, for one, has a `wasm-validate` too. What an earlier version had and this one hasn't is removed. `--uninstall` removes what the list has.
set -eu
umask 022
prefix=/usr/local
uninstalls=
usage='usage: install.sh [--prefix FOLDER] [--uninstall]'

stop() {
    echo "install.sh: $2" >&2
    exit "$1"
}

while [ $# -gt 0 ]; do
    case $1 in
    --prefix) [ $# -ge 2 ] || stop 2 "--prefix wants a folder"
        prefix=$2; shift ;;
    --prefix=*) prefix=${1#--prefix=} ;;
    --uninstall) uninstalls=yes ;;
    --help | -h) echo "$usage"; exit 0 ;;
    *) echo "$usage" >&2; exit 2 ;;
    esac
    shift
done
[ -n "$prefix" ] || stop 2 "the prefix is empty"
case $prefix in
/*) ;;
*) prefix=$PWD/$prefix ;;
esac
while [ "$prefix" != "${prefix%/}" ]; do prefix=${prefix%/}; done
to=${DESTDIR:-}$prefix
case $to in
/* | '') ;;
*) to=./$to ;;
esac
list=$to/share/doc/ruthvelka/FILES

# A checksum of a file, or where a link leads; nothing where there is neither.
sum_of() {
    if [ -L "$1" ]; then readlink -- "$1"; elif [ -f "$1" ]; then cksum <"$1"; elif [ -e "$1" ]; then echo folder; fi
}

# Whether the list has this file as it is now.
is_listed() {
    grep -Fxq -- "$(sum_of "$to/$1") $1" "$list" 2>/dev/null
}

if [ -n "$uninstalls" ]; then
    [ -f "$list" ] || stop 1 "there is no $list, so nothing is known to be installed in $to/"
    sed 's/.* //' "$list" | LC_ALL=C sort -u | while IFS= read -r it; do
        rm -f -- "$to/$it.new"
        if is_listed "$it"; then
            rm -f -- "$to/$it"
        elif [ -n "$(sum_of "$to/$it")" ]; then
            echo "install.sh: $to/$it has changed, and stays" >&2
        fi
    done
    rm -f -- "$list"
    find "$to/share/doc/ruthvelka" -depth -type d -exec rmdir -- {} + 2>/dev/null || true
    echo "removed from $to/"
    exit 0
fi

script=$0
if command -v readlink >/dev/null; then script=$(readlink -f -- "$0"); fi
from=$(CDPATH='' cd -- "$(dirname -- "$script")" && pwd -P)
if [ ! -f "$from/bin/wasm-check" ]; then stop 1 "$from hasn't the files of the archive"; fi
if [ "$(CDPATH='' cd -- "$to/" 2>/dev/null && pwd -P)" = "$from" ]; then stop 2 "$to/ is where the archive was unpacked: name another folder by --prefix"; fi

# The files of the folders that are installed, and the links, by their names from here.
files=$(cd "$from" && find bin include lib share ! -type d) || exit 1
files=$(echo "$files" | LC_ALL=C sort)
echo "$files" | while IFS= read -r it; do
    there=$(sum_of "$to/$it")
    if [ -n "$there" ] && [ "$there" != "$(sum_of "$from/$it")" ] && ! is_listed "$it"; then
        stop 1 "$to/$it is there, and isn't known to be ours: remove it, or name another folder by --prefix"
    fi
done

# The modes are ours, and so is the owner: whoever unpacked the files doesn't own what root installs. A file is whole before it has its name.
install_file() {
    mkdir -p -- "$to/$(dirname -- "$1")"
    rm -f -- "$to/$1.new"
    cp -P -- "$from/$1" "$to/$1.new" || { rm -f -- "$to/$1.new"; return 1; }
    case $1 in
    */libruthvelka.so) ;;
    bin/* | lib/*.so.*) chmod 755 -- "$to/$1.new" ;;
    *) chmod 644 -- "$to/$1.new" ;;
    esac
    mv -f -- "$to/$1.new" "$to/$1"
}

write_list() {
    mkdir -p -- "$to/share/doc/ruthvelka"
    echo "$1" | sed '/^$/d' >"$list.new"
    mv -f -- "$list.new" "$list"
}

# The list has both versions until all is done, so that what was cut off can be done again, or removed.
ours=$(echo "$files" | while IFS= read -r it; do echo "$(sum_of "$from/$it") $it"; done)
before=$(cat "$list" 2>/dev/null || true)
write_list "$before
$ours"
echo "$files" | while IFS= read -r it; do install_file "$it"; done
echo "$before" | sed 's/.* //' | while IFS= read -r it; do
    if [ -n "$it" ] && ! echo "$files" | grep -Fxq -- "$it" && is_listed "$it"; then rm -f -- "$to/$it"; fi
done
write_list "$ours"
echo "installed in $to/"
[ -z "${DESTDIR:-}" ] || exit 0
case $prefix in
/usr/local | /usr) echo "call ldconfig, so that programs find the library" ;;
*) echo "programs find the library where LD_LIBRARY_PATH has $prefix/lib" ;;
esac

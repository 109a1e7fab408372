#!/bin/sh
# Installs into a temporary folder and uses what is there: install.sh FOLDER MAKE [MAKE'S WORDS..]
# A program is compiled and linked by what the pkg-config file says, and run; ultra-list lists; DESTDIR moves the files and not what the
# pkg-config file says; and what was installed, nothing else, is taken away again.
set -eu
folder=$1
shift
here=$(cd "$(dirname "$0")" && pwd)
samples=$here/../samples
rm -rf "$folder"
mkdir -p "$folder"
folder=$(cd "$folder" && pwd)

fail() {
    echo "install.sh: $*" >&2
    exit 1
}

"$@" -s install PREFIX="$folder/prefix"
for file in lib/libultra.a include/ultra.h lib/pkgconfig/ultra.pc bin/ultra-list; do
    [ -f "$folder/prefix/$file" ] || fail "$file is not installed"
done

# A listing, and a refusal; from another folder, since the program is used from anywhere.
for sample in listing size_of_zero; do
    (cd / && PATH="$folder/prefix/bin:$PATH" && ultra-list <"$samples/$sample.bin") | cmp - "$samples/$sample.txt" ||
        fail "ultra-list does not print samples/$sample.txt"
done

# What pkg-config answers, read by hand where there is none.
flags_of() {
    sed -n "s,^$1: ,,p" "$folder/prefix/lib/pkgconfig/ultra.pc" |
        sed "s,\${libdir},$folder/prefix/lib,g; s,\${includedir},$folder/prefix/include,g"
}
if command -v pkg-config >/dev/null; then
    cflags=$(PKG_CONFIG_PATH="$folder/prefix/lib/pkgconfig" pkg-config --cflags ultra)
    libs=$(PKG_CONFIG_PATH="$folder/prefix/lib/pkgconfig" pkg-config --libs ultra)
else
    cflags=$(flags_of Cflags)
    libs=$(flags_of Libs)
fi
[ -n "$libs" ] || fail "the pkg-config file names no library"
# shellcheck disable=SC2086 # flags are words
"${CC:-cc}" -Wall -Wextra -Werror $cflags "$here/c/installed.c" $libs -o "$folder/installed"
"$folder/installed"

"$@" -s install PREFIX=/usr DESTDIR="$folder/stage"
for file in lib/libultra.a include/ultra.h bin/ultra-list; do
    [ -f "$folder/stage/usr/$file" ] || fail "DESTDIR is not honoured: no $file in it"
done
grep -qx 'prefix=/usr' "$folder/stage/usr/lib/pkgconfig/ultra.pc" || fail "the pkg-config file names the staging folder"
if grep -rq '@[A-Z]*@' "$folder/stage/usr/lib/pkgconfig"; then fail "the template is not filled in"; fi

touch "$folder/prefix/lib/other"
"$@" -s uninstall PREFIX="$folder/prefix"
[ "$(cd "$folder/prefix" && find . -type f)" = ./lib/other ] || fail "make uninstall leaves or takes more than it should"
echo "install: the installed library is found, linked and run, and the installed program lists"

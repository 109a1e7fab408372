#!/usr/bin/env bash
# Has rt make a file out of a crate and those below it: prove.sh FILE LOG CRATE, where FILE is an archive, NAME.a, or a program.
# rt leaves it in the crate's out/, from where it is copied. It builds a program in order to run it, so the program is run, with the
# arguments and the input that stand beside its src/; what it prints is rt ci's to compare.
# Shown, on standard error, are a line for each crate as it is proved and what is not; the log has the rest. Where nothing is left to
# prove, nothing is shown. The exit status is not 0 where rt's is not.
set -euo pipefail
file=$1
log=$2
crate=crates/$3
"$(dirname "$0")/tools.sh" rt
mkdir -p "$(dirname "$log")" "$(dirname "$file")"
[ -e "$file" ] || echo "make: proving the crates that $file is made of; from nothing this takes some minutes" >&2

make_it() {
    case $file in
    *.a) rt lib ;;
    *)
        arguments=()
        [ ! -e args ] || mapfile -t arguments <args
        input=/dev/null
        [ ! -e stdin ] || input=stdin
        rt run -- "${arguments[@]}" <"$input" >/dev/null
        ;;
    esac
}

# The file is as old as the sources that rt began with, so that a source that is changed meanwhile is younger.
began=$(date +%s.%N)
(cd "$crate" && make_it) 2>&1 | tee "$log" |
    sed -un 's/^rt: chose --jobs [0-9]* for /rt: proving /; /^rt: running /d; /^rt: nothing has changed /d; /: begins with what a check kept /d; /^rt: /p' >&2 ||
    { echo "make: not proved; $log says why" >&2 && exit 1; }
made=$crate/out/$(basename "$file")
[ -e "$made" ] || { echo "make: rt passed and made no $made; $log has what it said" >&2 && exit 1; }
cp "$made" "$file.new"
touch -d "@$began" "$file.new"
mv "$file.new" "$file"

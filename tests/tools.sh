#!/bin/sh
# Says which of the tools that the make targets need are missing: tools.sh [-l] [NAME..], where no name stands for all of them.
# Every missing one is named at once, with what needs it and its Debian package, and the exit status is then 1. With -l, what is
# there is listed too. CC, CXX, PYTHON, CARGO and VALGRIND name other commands. This script itself needs nothing but a shell.
set -u
case $0 in */*) root=${0%/*}/.. ;; *) root=.. ;; esac
: "${CC:=cc}" "${CXX:=g++}" "${PYTHON:=python3}" "${CARGO:=cargo}" "${VALGRIND:=valgrind}"
newline='
'
there='' missing='' packages='' notes=''

# ---- What is said of a tool ----

found() { # NAME WHAT
    there="$there$(printf '  %-10s%s' "$1" "$2")$newline"
}
lack() { # NAME WHY-NOT WHAT-NEEDS-IT PACKAGE, which is none where apt-get does not help; then a note says what does
    missing="$missing$(printf '  %-10s%s; needed for %s' "$1" "$2" "$3")${4:+; Debian package: $4}$newline"
    case " $packages " in *" $4 "*) ;; *) packages="$packages${4:+ $4}" ;; esac
}
note() {
    notes="$notes$1$newline"
}

# The first line of what a command says, errors too.
first_line() {
    said=$("$@" 2>&1)
    ended=$?
    printf '%s\n' "${said%%"$newline"*}"
    return $ended
}

# ---- Tools that only have to be there ----

plain() { # NAME COMMAND PACKAGE WHAT-NEEDS-IT
    if command -v "${2%% *}" >/dev/null 2>&1; then
        # shellcheck disable=SC2086 # a command can have words
        found "$1" "$(first_line $2 --version)"
    else
        lack "$1" "${2%% *} is not found" "$4" "$3"
        return 1
    fi
}

# ---- Tools that have to be fit besides ----

# A compiler finds the C library's headers.
compiler() { # NAME COMMAND LANGUAGE PACKAGE WHAT-NEEDS-IT
    plain "$1" "$2" "$4" "$5" || return
    # shellcheck disable=SC2086
    echo '#include <stdio.h>' | $2 -x "$3" -fsyntax-only - >/dev/null 2>&1 || lack "$1" "$2 finds no <stdio.h>" "$5" libc6-dev
}

python_of_3_9() {
    use='the tests in Python'
    plain python3 "$PYTHON" python3 "$use" || return
    # shellcheck disable=SC2086 # a command can have words
    $PYTHON -c 'pass' 2>/dev/null || { lack python3 "$PYTHON does not run" "$use" python3 && return; }
    $PYTHON -c 'import sys; sys.exit(sys.version_info < (3, 9))' 2>/dev/null ||
        lack python3 "$(first_line "$PYTHON" --version), where 3.9 or newer is needed" "$use" python3
}

# Whether the first number of the form X.Y.. in a line is at least another of the form X.Y.
at_least() { # LINE WANTED
    for word in $1; do
        case $word in [0-9]*.[0-9]*) ;; *) continue ;; esac
        minor=${word#*.}
        minor=${minor%%[!0-9]*}
        [ "${word%%.*}" -gt "${2%%.*}" ] || { [ "${word%%.*}" -eq "${2%%.*}" ] && [ "$minor" -ge "${2#*.}" ]; }
        return
    done
    return 1
}

# The Rust that tests/model/Cargo.toml asks for.
rust_wanted() {
    while IFS= read -r line; do
        case $line in 'rust-version = "'*) line=${line#*\"} && printf '%s\n' "${line%%\"*}" ;; esac
    done <"$root/tests/model/Cargo.toml"
}

rust() {
    use='the tests in Rust'
    wanted=$(rust_wanted)
    [ -n "$wanted" ] || { echo 'tools.sh: tests/model/Cargo.toml has no rust-version' >&2 && exit 2; }
    if ! command -v "$CARGO" >/dev/null 2>&1; then
        lack cargo "$CARGO is not found" "$use" ''
    elif ! of_cargo=$(first_line "$CARGO" --version); then
        lack cargo "$CARGO does not run: $of_cargo" "$use" ''
    elif ! of_rustc=$(first_line "${RUSTC:-rustc}" --version); then
        lack cargo "${RUSTC:-rustc} does not run: $of_rustc" "$use" ''
    elif ! at_least "$of_cargo" "$wanted" || ! at_least "$of_rustc" "$wanted"; then
        lack cargo "$of_cargo with $of_rustc is too old" "$use" ''
    else
        found cargo "$of_cargo"
        return
    fi
    note "cargo has to come with Rust $wanted or newer. Debian package: cargo; that of Debian 12 and 13 is older,
so get it from https://rustup.rs there."
}

# The kit. Another one than kit.txt names is let pass with a warning.
kit() {
    use='all that is proved or compiled'
    IFS= read -r wanted <"$root/kit.txt"
    if ! command -v rt >/dev/null 2>&1; then
        lack rt 'rt is not on the PATH' "$use" ''
    elif ! have=$(first_line rt version); then
        lack rt "\`rt version\` fails, so $(command -v rt) is not the Rattle kit's" "$use" ''
    else
        found rt "$have"
        [ "$have" = "$wanted" ] || echo "tools: warning: this library is proved with \`$wanted\` (kit.txt), and rt is \`$have\`.
The proofs decide: where they pass, it will do." >&2
        return
    fi
    note "rt proves and compiles what is here. It is part of the Rattle kit (\`$wanted\`), no Debian package.
To go on, put the kit's folder bin/ on the PATH: export PATH=KIT/bin:\$PATH; then \`rt version\` prints that line.
Without it there is what only reads: make help, make where, make figures."
}

check() { # NAME
    case $1 in
    rt) kit ;;
    make) plain make make make 'every target' ;;
    bash) plain bash bash bash 'make test and all that is proved' ;;
    cc) compiler cc "$CC" c gcc 'the tests in C and in Rust' ;;
    c++) compiler c++ "$CXX" c++ g++ 'test-header' ;;
    python3) python_of_3_9 ;;
    cargo) rust ;;
    valgrind) plain valgrind "$VALGRIND" valgrind 'test-valgrind' ;;
    objdump) plain objdump objdump binutils 'test-stack and fuzz' ;;
    nm) plain nm nm binutils 'test-symbols and fuzz' ;;
    ar) plain ar ar binutils 'test-stack and fuzz' ;;
    *) echo "tools.sh: what is $1?" >&2 && exit 2 ;;
    esac
}

list=''
[ "${1:-}" != -l ] || { list=yes && shift; }
[ $# -gt 0 ] || set -- rt make bash cc c++ python3 cargo valgrind objdump nm ar
for name in "$@"; do check "$name"; done
[ -z "$list" ] || printf '%s' "$there"
[ -n "$missing" ] || exit 0
{
    printf 'tools: missing:\n%s%s' "$missing" "$notes"
    [ -z "$packages" ] || printf 'On Debian: apt-get install%s\n' "$packages"
} >&2
exit 1

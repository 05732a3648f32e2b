# Shared by the test scripts: the program under test, the build of a test program, its cases, and wrong programs that it must notice.

program=crates/desk/out/desk
# A program that calls the library from C is compiled with the folder of tariff.h and the library itself.
library=(-Iinclude crates/capi/out/libcapi.a)
sanitizers=(-O1 -fsanitize=address,undefined -fno-sanitize-recover=all)

# need_program: `desk` is as `rt ci` has left it, or else `rt run` proves, builds and runs it.
need_program() {
    is_built "$program" || in_crate desk run
}

# need_library: `rt ci` proves the library and leaves no archive, which `rt lib` makes of what is proved.
need_library() {
    is_built "${library[1]}" || in_crate capi lib
}

# is_built FILE: it is there, and no file that it is made of or proved by is newer.
is_built() {
    [ -e "$1" ] && [ -z "$(find crates.txt crates/*/{src,specs,proofs} -newer "$1" -print -quit 2>/dev/null)" ]
}

# in_crate CRATE COMMAND: this command of `rt`, in the crate's folder, with no input.
in_crate() {
    (cd "crates/$1" && quiet rt "$2" </dev/null)
}

install_cadical() {
    apt-get install -y -q libcadical-dev || (apt-get update -q && apt-get install -y -q libcadical-dev)
}

# What apt-get prints is shown where it fails.
need_cadical() {
    [ -e /usr/include/cadical.hpp ] && return
    echo "$0: installing Debian's libcadical-dev"
    quiet install_cadical && [ -e /usr/include/cadical.hpp ] && return
    echo "$0: /usr/include/cadical.hpp is missing and cannot be installed; as root: apt-get install libcadical-dev" >&2
    exit 1
}

# quiet COMMAND...: what the command prints is shown where it fails, and nothing otherwise.
quiet() {
    local said code=0
    said=$("$@" 2>&1) || code=$?
    [ "$code" = 0 ] || printf '%s\n' "$said" >&2
    return "$code"
}

# build NAME [ARGUMENT...]: tests/NAME/main.cpp becomes target/tests/NAME.
build() {
    compile "$1" "tests/$1/main.cpp" "${@:2}"
}

# compile NAME SOURCE [ARGUMENT...]: a program in C or C++ becomes target/tests/NAME; a warning is an error.
compile() {
    local compiler=(g++ -std=c++17)
    [ "${2##*.}" = cpp ] || compiler=(gcc -std=c11)
    mkdir -p target/tests
    "${compiler[@]}" -O2 -Wall -Wextra -Werror -o "target/tests/$1" "${@:2}"
}

# self_test NAME CASES FAULT...: the test must fail on each wrong program within so many cases, and keep a case that can be run.
# With no fault the same wrapper must pass, so that it is the fault that is noticed.
self_test() {
    local name=$1 cases=$2 fault kept
    shift 2
    run_wrong "$name" "$cases" none || { echo "$name: fails with no fault (see target/tests/$name.wrong/none/log)" >&2; exit 1; }
    for fault in "$@"; do
        local folder="target/tests/$name.wrong/${fault// /-}" code=0
        run_wrong "$name" "$cases" "$fault" || code=$?
        kept=$(find "$folder/failed" -name script 2>/dev/null | head -n 1)
        if [ "$code" != 1 ] || [ -z "$kept" ] || ! runs_again "$(dirname "$kept")"; then
            echo "$name: a wrong program is not noticed: $fault (see $folder/log)" >&2
            exit 1
        fi
    done
    echo "$name: notices $# wrong programs and keeps a case of each"
}

# run_wrong NAME CASES FAULT: the first cases on a wrong program.
run_wrong() {
    local folder="target/tests/$1.wrong/${3// /-}"
    mkdir -p "$folder"
    FAULT=$3 PROGRAM=$PWD/$program "target/tests/$1" tests/support/wrong_desk.sh "$folder" "$2" >"$folder/log" 2>&1
}

# run_cases NAME [--selftest]: all cases, unless only the self-test was asked for.
run_cases() {
    [ "${2:-}" = --selftest ] || "target/tests/$1" "$program" "target/tests/$1.d"
}

# runs_again FOLDER: the program runs on a kept case.
runs_again() {
    local desk=$PWD/$program
    (cd "$1" && "$desk" <script >/dev/null)
}

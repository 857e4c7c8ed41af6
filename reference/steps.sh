# The steps of the gate, to be read by reference/gate and by the shell of each step, in the root of the repository. `room` is a folder for what a run makes.
# Environment variables name other things than the repository's, so that check-checks can try the steps on wrong ones: PROGRAMS, the folder of the programs,
# and EXAMPLES, that of the examples in C.
# shellcheck shell=bash
room=${room:?}
steps=${BASH_SOURCE[0]}
programs=${PROGRAMS:-target/bin}
examples=${EXAMPLES:-reference/linked/examples}
# The stack in KiB that the programs are tried with, not quite twice what the guide says that they need.
stack=512

# step NAME COMMAND...: runs a command, which may be a function of this file, and says how it ended and the last line that it printed. It has a shell of its
# own, which ends at the first command that fails, in a pipe too. In the condition of an `if` this shell would go on.
step() {
    local name=$1 began=$SECONDS status=0
    shift
    bash -O inherit_errexit -euo pipefail -c 'source "$0"; "$@"' "$steps" "$@" >"$room/log" 2>&1 || status=$?
    if [ "$status" -ne 0 ]; then
        cat "$room/log"
        echo "$name: FAILED, exit status $status"
        exit 1
    fi
    echo "$name: ok, $((SECONDS - began)) s: $(tail -n 1 "$room/log")"
}

in_reference() (cd reference && "$@")

# The proved programs, built anew.
programs_built() {
    local program
    rm -rf target/bin
    tools/build verdict syllabify turkish_matrix
    for program in verdict syllabify turkish_matrix; do test -x "target/bin/$program"; done
}

# The proved archive, built anew.
archive_built() {
    rm -rf target/staticlib
    tools/build furlazon
    test -s target/staticlib/libfurlazon.a
}

# All tests of all packages; prints how many passed.
tests() {
    in_reference cargo test --quiet --offline --workspace >"$room/tests" 2>&1 || { cat "$room/tests"; return 1; }
    awk '/^test result/ { passed += $4 } END { print passed + 0 " tests passed"; exit passed == 0 }' "$room/tests"
}

# c_example NAME: builds an example in C. An older one is removed first, so that it cannot be run in its place.
c_example() {
    rm -f "$room/$1-c"
    cc -std=c99 -Wall -Wextra -Werror -pedantic -O2 -I include "$examples/$1.c" -L target/staticlib -lfurlazon -o "$room/$1-c"
}

c_verdict() {
    c_example verdict
    reference/check-sheets "$room/verdict-c"
}

# The example in Python calls the archive as a shared object, whose code has to be position independent.
python_verdict() {
    rm -f "$room/libfurlazon.so"
    cc -shared -Wl,-z,text -Wl,--whole-archive target/staticlib/libfurlazon.a -Wl,--no-whole-archive -o "$room/libfurlazon.so"
    reference/check-sheets python3 "$examples/verdict.py" "$room/libfurlazon.so"
}

# The examples in C, also as C++, and in Rust print the same.
operations() {
    local program
    c_example operations
    rm -f "$room/operations-cc"
    c++ -x c++ -Wall -Wextra -Werror -O2 -I include "$examples/operations.c" -x none -L target/staticlib -lfurlazon -o "$room/operations-cc"
    for program in "$room/operations-c" "$room/operations-cc" reference/target/release/examples/operations; do
        "$program" >"$room/printed"
        diff "$room/printed" "$examples/operations.out"
    done
    head -n 1 "$room/printed"
}

# Every sheet and every ban list through a pipe in small pieces, with a pause after the first two, so that a single read cannot have it whole.
pieces() {
    reference/check-sheets bash -o pipefail -c '
        pieces() { { dd bs=5 count=1; sleep 0.03; dd bs=7 count=3; sleep 0.03; dd bs=5; } 2>/dev/null; }
        if [ $# -eq 0 ]; then pieces | "$0"; else pieces | "$0" <(pieces <"$1"); fi' "$programs/verdict"
}

# An input of any length gets an answer: here ten million bytes, as a sheet and as a ban list. The program may stop reading before their end.
long_input() {
    { head -c 10000000 /dev/zero || true; } 2>/dev/null | "$programs/verdict" >"$room/printed"
    printf 'refused,1\r\n' | cmp - "$room/printed"
    "$programs/verdict" <(head -c 10000000 /dev/zero 2>/dev/null) <sheets/code-t.csv >"$room/printed"
    printf 'refused,1\r\n' | cmp - "$room/printed"
    cat "$room/printed"
}

# The programs answer with the stack that the guide names.
small_stack() {
    reference/check-sheets bash -c 'ulimit -s "$0" && exec "$@"' "$stack" "$programs/verdict"
    reference/check-texts bash -c 'ulimit -s "$0" && exec "$@"' "$stack" "$programs/syllabify"
}

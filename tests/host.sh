#!/usr/bin/env bash
# The Rust side: links the archive that was just proved, runs the Rust tests and the C header's
# program, and then compares the proved calls with the independent model and measures their stack.
# Takes the archive from the folder SHIULBART_ARCHIVE_DIR instead, if that is set.
set -u
exec </dev/null
. "$(dirname "$(readlink -f "${BASH_SOURCE[0]}")")/tally.bash" || exit

scratch=$(mktemp -d) || { wrong 'there is no temporary folder'; finish; }
trap 'kill $(jobs -p) 2>/dev/null; rm -rf "$scratch"' EXIT

# Runs what must work for the rest to make sense.
need() { # COMMAND...
    "$@" 2>&1 || { wrong "$*: exit status $?"; finish; }
}

# Adds up the counts of a run whose output is in the log. A run that fails or tries nothing has a
# failure, whatever it counts.
add() { # WHAT STATUS PASSED FAILED
    passed=$((passed + $3)) failed=$((failed + $4))
    if [ "$2" -ne 0 ]; then
        if [ "$4" -gt 0 ]; then echo "FAILED $1: exit status $2"; else wrong "$1: exit status $2"; fi
    elif [ "$4" -eq 0 ] && [ "$3" -eq 0 ]; then
        wrong "$1: it tried nothing"
    fi
}

# Counts what a program said, whose last line is 'N passed, M failed'.
count() { # WHAT STATUS FILE
    if [[ $(tail -n 1 "$3") =~ ^([0-9]+)\ passed,\ ([0-9]+)\ failed$ ]]; then
        add "$1" "$2" $((10#${BASH_REMATCH[1]})) $((10#${BASH_REMATCH[2]}))
    else
        wrong "$1: exit status $2, and its last line is not 'N passed, M failed'"
    fi
}

# Starts such a program of the comparison beside what comes next: it takes one core, and long where it
# is emulated.
declare -A started
begin() { # NAME WORDS...
    cargo run --release --offline --locked -q -p compare --bin "$1" -- "${@:2}" >"$scratch/$1" 2>&1 &
    started[$1]=$!
}

# Waits for it, and shows and counts what it said.
end() { # NAME
    local status
    wait "${started[$1]}"
    status=$?
    cat "$scratch/$1"
    count "$1" "$status" "$scratch/$1"
}

# Rust's tests: every test program has its line 'test result: ok. N passed; M failed; ..'.
rust_tests() { # WORDS...
    local status good=0 bad=0 line
    cargo test --release --offline --locked --no-fail-fast "$@" 2>&1 | tee "$scratch/log"
    status=${PIPESTATUS[0]}
    while read -r line; do
        if [[ $line =~ ^test\ result:\ [A-Za-z]+\.\ ([0-9]+)\ passed\;\ ([0-9]+)\ failed\; ]]; then
            good=$((good + 10#${BASH_REMATCH[1]})) bad=$((bad + 10#${BASH_REMATCH[2]}))
        fi
    done <"$scratch/log"
    add "cargo test $*" "$status" "$good" "$bad"
}

if [ -n "${SHIULBART_ARCHIVE_DIR-}" ]; then
    SHIULBART_ARCHIVE_DIR=$(readlink -m "$SHIULBART_ARCHIVE_DIR")
    export SHIULBART_ARCHIVE_DIR
fi
cd "$top" || { wrong "there is no folder $top"; finish; }
need host/setup
. host/env.sh
[ -n "${SHIULBART_ARCHIVE_DIR-}" ] || need host/archive
archive=${SHIULBART_ARCHIVE_DIR:-$top/target/staticlib}/libboard.a
[ -f "$archive" ] || { wrong "there is no $archive"; finish; }

cd host || { wrong "there is no folder $top/host"; finish; }
need cargo build --release --offline --locked --workspace
begin compare --gate
begin stack
if [ "$(uname -m)" = aarch64 ]; then
    # the model links no archive, so nothing of it has to be emulated
    rust_tests -p model --tests --target aarch64-unknown-linux-gnu
    rust_tests --workspace --exclude model --tests
    # no documentation tests: they would need a rustdoc that builds for x86-64
    compiler=$CARGO_TARGET_X86_64_UNKNOWN_LINUX_GNU_LINKER
    runner=$CARGO_TARGET_X86_64_UNKNOWN_LINUX_GNU_RUNNER
else
    rust_tests --workspace --tests
    compiler=cc runner=
    rust_tests -p shiulbart --doc
fi

# what the archive asks of its host: README.md says that it is memset alone
asked=$("$("$compiler" -print-prog-name=nm)" -u "$archive" | sed -n 's/^ *U //p' | sort -u)
if [ "$asked" = memset ]; then
    passed=$((passed + 1))
else
    wrong "the archive asks its host for: $(printf '%s' "$asked" | tr '\n' ' ')"
fi

# the header, from C99 and C11 and, where there is a compiler for it, as C++
strict=(-Wall -Wextra -Werror -pedantic -I "$top/include")
if "$compiler" -std=c99 "${strict[@]}" "$top/tests/header.c" "$archive" -o "$scratch/header" 2>&1; then
    $runner "$scratch/header" >"$scratch/header.out" 2>&1
    status=$?
    cat "$scratch/header.out"
    count tests/header.c "$status" "$scratch/header.out"
else
    wrong "tests/header.c does not compile"
fi
if "$compiler" -std=c11 "${strict[@]}" -fsyntax-only "$top/tests/header.c" 2>&1; then
    passed=$((passed + 1))
else
    wrong "tests/header.c does not compile as C11"
fi
if command -v c++ >/dev/null; then
    if c++ -std=c++11 "${strict[@]}" -fsyntax-only -x c++ "$top/include/shiulbart.h" 2>&1; then
        passed=$((passed + 1))
    else
        wrong "include/shiulbart.h does not compile as C++"
    fi
fi

end compare
end stack
finish

#!/usr/bin/env bash
# Holds ./judge to examples/expected, and tries it on long and slow input and from another directory.
set -u
. "$(dirname "$(readlink -f "${BASH_SOURCE[0]}")")/tally.bash" || exit

# Holds a command that judges standard input to the line that it must print, and to exit status 0.
expect() { # WHAT LINE COMMAND...
    local what=$1 line=$2 came
    shift 2
    came=$("$@" 2>&1; echo "exit status $?")
    if [ "$came" = "$line"$'\nexit status 0' ]; then
        passed=$((passed + 1))
    else
        came=${came//$'\n'/', '}
        wrong "$what: expected '$line', came '${came:0:300}'"
    fi
}

symbol() { # LETTERS: a Symbol of one text of so many letters, 128 to 16,383
    local size=$(($1 + 3)) numbers
    printf -v numbers '\\x%02x' 0x44 $((size % 256)) $((size / 256)) 1 $(($1 % 128 + 128)) $(($1 / 128))
    printf "$numbers"
    printf "%$1s" '' | tr ' ' a
}

slowly() { # HEX...: a byte at a time
    local byte
    for byte; do
        printf "\\x$byte"
        sleep 0.02
    done
}

from_elsewhere() { (cd / && "$top/judge"); }

cd "$top" || { wrong "there is no folder $top"; finish; }

# the first call may build the program: where that fails, every other would try it again
if ! came=$(printf '\x60' | ./judge 2>&1); then
    printf '%s\n' "$came"
    wrong "./judge does not run: expected 'ok 1 2', came the above"
    finish
fi

declare -A listed
while read -r name line || [ -n "$name" ]; do
    if [ -f "examples/$name" ]; then
        listed[$name]=yes
        expect "examples/$name" "$line" ./judge <"examples/$name"
    else
        wrong "examples/$name: expected '$line', and there is no such file"
    fi
done <examples/expected
for file in examples/*; do
    name=${file#examples/}
    case $name in README.md | expected) continue ;; esac
    [ -n "${listed[$name]-}" ] || wrong "$file: no line of examples/expected says what is expected"
done

expect 'empty input' 'no 1 0' ./judge </dev/null
expect 'the byte 60' 'ok 1 2' ./judge < <(printf '\x60')
expect '2,048 bytes' 'ok 2048 1' ./judge < <(symbol 2042)
expect '2,049 bytes' 'no 8 2048' ./judge < <(symbol 2043)
expect '2,048 bytes and one more' 'no 8 2048' ./judge < <(symbol 2042; printf a)
expect '5,000 bytes' 'no 8 2048' ./judge < <(head -c 5000 /dev/zero)
expect 'a byte at a time' 'ok 10 3' ./judge < <(slowly 42 07 00 02 01 61 20 01 62 62)
expect '2,048 bytes, a byte at a time' 'ok 2048 1' ./judge < <(symbol 2042 | dd bs=1 2>/dev/null)
expect '2,049 bytes, a byte at a time' 'no 8 2048' ./judge < <(symbol 2043 | dd bs=1 2>/dev/null)
# the program answers once it is full, though the input goes on
expect '2,049 bytes and no end' 'no 8 2048' timeout 30 ./judge < <(head -c 2049 /dev/zero; exec sleep 60 2>/dev/null)
kill $!
expect 'from another directory' 'ok 10 3' from_elsewhere <examples/M04-record

# where it cannot read there is no line, and it says why
came=$(./judge </ 2>/dev/null; echo "exit status $?")
if [ "$came" = 'exit status 2' ]; then
    passed=$((passed + 1))
else
    wrong "a folder as standard input: expected 'exit status 2', came '$came'"
fi
finish

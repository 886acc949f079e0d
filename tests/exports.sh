#!/usr/bin/env bash
# A host can make each call of board, and no other: those that board_c exports and include/shiulbart.h declares have the same names. What an
# export says is proved (board_c/proofs/Exports.antt).
set -u
exec </dev/null
. "$(dirname "$(readlink -f "${BASH_SOURCE[0]}")")/tally.bash" || exit

cd "$top" || { wrong "there is no folder $top"; finish; }
mapfile -t board < <(sed -n 's/^pub fn \(\w*\)(.*/\1/p' crates/board/src/lib.rt | sort)
mapfile -t exported < <(grep -A 1 -xF '#[unsafe(no_mangle)]' crates/board_c/src/lib.rt | sed -n 's/^pub extern "C" fn \(\w*\)(.*/\1/p' | sort)
mapfile -t declared < <(sed -n 's/^shiulbart_\w* \(shiulbart_\w*\)(.*/\1/p' include/shiulbart.h | sort)

[ "${#board[@]}" -gt 0 ] || wrong 'board has no call'
same_lines board exported
same_lines board declared
finish

#!/usr/bin/env bash
# The session of README.md, copied line by line: every line after '$ ' in a console block is typed, in one shell, and what it prints must be
# what stands below it.
set -u
exec </dev/null
. "$(dirname "$(readlink -f "${BASH_SOURCE[0]}")")/tally.bash" || exit

scratch=$(mktemp -d) || { wrong 'there is no temporary folder'; finish; }
trap 'rm -rf "$scratch"' EXIT
ln -s "$top/shiulbart" "$scratch/shiulbart"
cd "$scratch" || { wrong "there is no folder $scratch"; finish; }

# the first call may build the tool: where that fails, every other would try it again
if ! came=$(./shiulbart help 2>&1); then
    printf '%s\n' "$came"
    wrong './shiulbart help does not run'
    finish
fi

# Types a line, and compares what comes with what was read since.
line='' shown=''
typed() {
    [ -n "$line" ] || return
    local came
    eval "$line" >"$scratch/came" 2>&1
    came=$(cat "$scratch/came")
    if [ "$came" = "${shown%$'\n'}" ]; then
        passed=$((passed + 1))
    else
        wrong "$line"
        printf 'README.md has\n%s\nand there came\n%s\n' "${shown%$'\n'}" "$came"
    fi
    line='' shown=''
}

inside=no
while IFS= read -r text; do
    case $inside,$text in
    no,'```console') inside=yes ;;
    yes,'```')
        typed
        inside=no
        ;;
    yes,'$ '*)
        typed
        line=${text#'$ '}
        ;;
    yes,*) shown+=$text$'\n' ;;
    esac
done <"$top/README.md"
finish

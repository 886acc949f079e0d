# What every tests/*.sh starts with: the repository's top, the count that its last line gives, and what more than one of them tries.
top=$(dirname "$(dirname "$(readlink -f "${BASH_SOURCE[0]}")")")
passed=0 failed=0

finish() {
    echo "$passed passed, $failed failed"
    [ "$failed" -eq 0 ]
    exit
}

wrong() { # WHAT
    printf 'FAILED %s\n' "$1"
    failed=$((failed + 1))
}

# Compares two lists of lines, place by place.
same_lines() { # ONE OTHER: the names of two arrays
    local -n one=$1 other=$2
    local i none='(no line)'
    for ((i = 0; i < ${#one[@]} || i < ${#other[@]}; i++)); do
        if [ "${one[i]-$none}" = "${other[i]-$none}" ]; then
            passed=$((passed + 1))
        else
            wrong "line $((i + 1)) of $1 and of $2:"
            printf '  %s\n' "${one[i]-$none}" "${other[i]-$none}"
        fi
    done
}

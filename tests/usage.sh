# shellcheck shell=bash
# Read by the scripts here and in tools/ that are no Python: what becomes of their arguments, how they wait, and which of
# their rows they run.

# COMMAND..: waits until a command succeeds, for two minutes at most. A row that waits so does not hang on the clock.
await() {
    for _ in $(seq 1200); do
        "$@" > /dev/null 2>&1 && return
        sleep 0.1
    done
    return 1
}

# PATTERN FILE COUNT: whether so many lines of a file have the pattern.
has_lines() {
    [ "$(grep -c -- "$1" "$2")" -ge "$3" ]
}

# USAGE [ARGUMENT..]: answers --help by the usage and the comment at the head of the script, and refuses an option, or
# another number of arguments than the usage has words between the script's name and a bracket.
take_arguments() {
    local usage=$1 words fault
    shift
    read -ra words <<< "${usage%% \[*}"
    if [ "${1-}" = --help ] || [ "${1-}" = -h ]; then
        printf 'usage: %s\n\n' "$usage"
        sed -n '1d; /^[^#]/q; s/^# \{0,1\}//p' "$0"
        exit 0
    fi
    if [[ ${1-} == -* ]]; then
        fault="unknown option '$1'"
    elif [ $# -ge ${#words[@]} ]; then
        fault="one word too many, '${*: -1}'"
    elif [ $# -lt $((${#words[@]} - 1)) ]; then
        fault="${words[-1]} is wanted"
    else
        return
    fi
    echo "${words[0]}: $fault (try --help)" >&2
    exit 2
}

# The rows that are wanted, each with whether it was met; all are where --only names none. With --list none is run.
declare -A chosen=()
is_listed=
passed=0
failed=0

# USAGE [ARGUMENT..]: takes the arguments of a script whose rows have names: behind those of the usage --list, or --only with
# names of rows.
take_rows() {
    local usage="$1 [--list | --only NAME..]" name words behind
    read -ra words <<< "$1"
    behind=$((${#words[@]} + 1))
    case ${!behind-} in
        --list)
            is_listed=yes
            set -- "${@:1:behind-1}" "${@:behind+1}"
            ;;
        --only)
            for name in "${@:behind+1}"; do
                [ -z "$name" ] || chosen[$name]=
            done
            if [ ${#chosen[@]} = 0 ]; then
                echo "${usage%% *}: NAME is wanted behind '--only' (try --help)" >&2
                exit 2
            fi
            set -- "${@:1:behind-1}"
            ;;
    esac
    take_arguments "$usage" "${@:2}"
}

# NAME..: whether one of these rows is to be run. With --list it tells the names.
is_wanted() {
    local name
    if [ -n "$is_listed" ]; then
        printf '%s\n' "$@"
        return 1
    fi
    [ ${#chosen[@]} -gt 0 ] || return 0
    for name in "$@"; do
        [ -z "${chosen[$name]+chosen}" ] || return 0
    done
    return 1
}

# NAME RESULT: counts a row, if it is wanted. It passed where the result is 0. `seen` tells what was seen elsewhere.
told() {
    is_wanted "$1" || return 0
    [ ${#chosen[@]} = 0 ] || chosen[$1]=met
    if [ "$2" = 0 ]; then
        echo "ok: $1"
        passed=$((passed + 1))
    else
        echo "FAILED: $1 ($(seen))"
        failed=$((failed + 1))
    fi
}

# Tells how many rows passed and how many failed. Ends with 1 where one failed, and with 2 where one is wanted that is not
# there.
end_rows() {
    local name status=0
    [ -z "$is_listed" ] || exit 0
    [ "$failed" = 0 ] || status=1
    for name in "${!chosen[@]}"; do
        if [ -z "${chosen[$name]}" ]; then
            echo "$(basename "$0"): no row '$name' (try --list)" >&2
            status=2
        fi
    done
    echo "$passed passed, $failed failed"
    exit "$status"
}

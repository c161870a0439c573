# shellcheck shell=sh disable=SC2034
# Read by tests/scripts: a folder of its own for a run, and how a case is judged. It sets `here` (the top of the repository) and
# `room` (that folder).
here=$(CDPATH='' cd -- "$(dirname "$0")/.." && pwd) || exit 2
room=$(mktemp -d "${TMPDIR:-/tmp}/ldm-scripts-XXXXXX") || exit 2
trap 'rm -rf "$room"' EXIT
trap 'exit 130' INT TERM HUP
cases=0 failures=0 skips=0

skip() {
    skips=$((skips + 1))
    echo "skipped  $1: $2"
}

# Judges the case of name $1: the other words are a command that must succeed.
judge() {
    name=$1
    shift
    cases=$((cases + 1))
    if "$@"; then
        echo "ok       $name"
    else
        failures=$((failures + 1))
        echo "FAILED   $name"
    fi
}

is_text() {
    printf '%s' "$1" | cmp -s - "$2" || {
        echo "  wanted:"
        printf '%s' "$1" | sed 's/^/    /'
        echo "  had:"
        head -c 500 "$2" | tr -cd '\11\12\40-\176' | sed 's/^/    /'
        return 1
    }
}

# Whether a command ends in time with status $1, has said $2 and nothing else, and on standard error $3.
ends() {
    status=$1 out=$2 err=$3
    shift 3
    timeout 20 "$@" >"$room/out" 2>"$room/err" </dev/null
    ended=$?
    [ "$ended" = "$status" ] || {
        echo "  wanted status $status, had $ended"
        sed 's/^/    /' "$room/err" | head -5
        return 1
    }
    is_text "$out" "$room/out" && is_text "$err" "$room/err"
}

try() {
    name=$1
    shift
    judge "$name" ends "$@"
}

# As ends, but what is said on standard error may be anything.
ends_somehow() {
    status=$1 out=$2
    shift 2
    timeout 20 "$@" >"$room/out" 2>"$room/err" </dev/null
    ended=$?
    [ "$ended" = "$status" ] || {
        echo "  wanted status $status, had $ended"
        return 1
    }
    is_text "$out" "$room/out"
}

no_file() {
    [ ! -e "$1" ] && [ ! -L "$1" ]
}

# Whether the command says nothing.
says_nothing() {
    [ -z "$("$@")" ]
}

# Waits some seconds until a command succeeds.
wait_for() {
    what=$1
    shift
    tries=0
    until "$@"; do
        tries=$((tries + 1))
        [ "$tries" -lt 100 ] || {
            echo "  this never came: $what"
            return 1
        }
        sleep 0.1
    done
}

# Says how many cases failed, and ends.
sum_up() {
    echo "$cases cases, $skips skipped, $failures failures"
    [ "$failures" = 0 ]
}

# shellcheck shell=bash
# For the tools that compare with other programs, which source it: a folder, `work`, which goes with the tool, and the counts
# of what passed and failed.

source "$(dirname "$(readlink -f "${BASH_SOURCE[0]}")")/common.sh"
temporary_folder
passed=0
failed=0

# skip_without PROGRAM..: ends a check, where one of these is missing; it then counts as no failure
skip_without() {
    local program
    program=$(missing "$@")
    [ -z "$program" ] || {
        echo "skipped, which counts as no failure: $program is missing; tools/install.sh installs what the tools use"
        exit 0
    }
}

# is_small WORD..: whether a check is to be a short one, by its words, which are --small or none
is_small() {
    case $* in
        '') return 1 ;;
        --small) return 0 ;;
        *)
            echo "usage: $0 [--small]" >&2
            exit 2
            ;;
    esac
}

pass() {
    passed=$((passed + 1))
}

# fail WHAT: says what failed
fail() {
    echo "FAILED: $1"
    failed=$((failed + 1))
}

# tell_results: the last line; the status is 1 where something failed
tell_results() {
    echo "$passed passed, $failed failed"
    [ "$failed" = 0 ]
}

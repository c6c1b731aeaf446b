# Sourced by a launcher where nothing proved is kept of today's sources, with the words of the run: runs the code unproved. `name` is the
# launcher's, `crate` the program's, and `usage` the file of what the program says where the words are no command's.
# shellcheck shell=sh disable=SC2154,SC3013 # (who sources it sets what isn't set here; -ef is no standard, but in each shell)

say() { echo "$name: $*" >&2; }

# What the program reads, whole: `rt try` would take what comes within two seconds for all of it.
read_input() {
    case ${1-} in
    node | ip)
        # (a partner waits for its answers, and an unproved run has none before its input ends)
        [ -f /dev/stdin ] || [ /dev/stdin -ef /dev/null ] || {
            say "$1 needs the built program where its input is no file: $build makes it"
            return 1
        }
        ;;
    run)
        say "run needs the built program: $build makes it"
        return 1
        ;;
    replay | frames | life | listen | trace | try) ;;
    *) return 0 ;;
    esac
    cat >"$room/input" || { say "standard input can't be read"; return 1; }
    [ "$(wc -c <"$room/input")" -le 67108864 ] || { say "more than 64 MiB of input need the built program: $build makes it"; return 1; }
}

# Runs the code unproved, and ends as it ended. `rt try` puts its own lines behind what the program wrote to standard error.
run_unproved() {
    room=$(mktemp -d) || exit 1
    run=
    trap '[ -z "$run" ] || kill "$run"; rm -rf "$room"' EXIT
    trap 'exit 1' HUP INT TERM
    : >"$room/input"
    read_input "$@" || exit 1
    # (`rt try` runs in a folder of its own, so the files that are read have to be given to it)
    mkdir "$room/files" || exit 1
    for word; do
        shift
        if [ -f "$word" ]; then
            given=$room/files/$(basename "$word")
            [ ! -e "$given" ] || cmp -s "$word" "$given" || { say "two files of one name need the built program: $build makes it"; exit 1; }
            cp "$word" "$given" || exit 1
            word=$(basename "$word")
        fi
        set -- "$@" "$word"
    done
    set -- -- "$@"
    for given in "$room/files"/*; do [ ! -e "$given" ] || set -- --data "$(basename "$given")=$given" "$@"; done
    # (beside the shell, which would else heed no signal before it ends)
    (cd "$top/crates/$crate" && exec rt try "$@") <"$room/input" >"$room/output" 2>"$room/notes" &
    run=$!
    wait "$run"
    run=
    status=$(sed -n '$s/^run=ended status=\([0-9]*\) .*proved=no$/\1/p' "$room/notes")
    [ "$status" ] || {
        cat "$room/notes" >&2
        say "the unproved run gave no answer: it has a minute and 1 MiB of output, and stops at a fault; $build makes the proved program"
        exit 1
    }
    sed '$d' "$room/notes" | sed '${/^checked: ended status=[0-9]*$/d}' >&2
    cat "$room/output" || exit 5
    exit "$status"
}

build="./build${of:+ station}"
case "$*" in
# the program's own usage line, which the gate compares with what the program writes (other characters are in no command's words, and
# `rt try` takes no words that are no text)
'' | -h | --help | *[!\ -~]*) cat "$usage" >&2; exit 2 ;;
esac
command -v rt >/dev/null || { say "nothing is built, and there is no rt on this machine: install the Rattle kit first"; exit 1; }
why="nothing is built"
[ ! -x "$program" ] || why="sources are newer than what was built"
say "$why: this runs the code unproved, about a minute, small runs alone, output at the end; $build proves it"
run_unproved "$@"

# Sourced by the launchers, ./build, the gate and packaging/static, with `top` naming the repository: what stands in out/, and whether it is
# of today's sources. A program is called as its crate is, with a - for each _. wursthatch and wursthatch-look are built together; where `of`
# is `station-` and not empty, it is all about wursthatch-station, which is built alone, so that nobody else builds what it alone takes.
# shellcheck shell=sh disable=SC2154,SC3013 # (who sources it sets what isn't set here; -nt is no standard, but in each shell)
program=$top/out/wursthatch
programs="wursthatch wursthatch_look"
[ -z "$of" ] || program=$top/out/wursthatch-station programs=wursthatch_station

# Whether a proved program is kept of which no source is newer. ./wursthatch asks this before each run, so it is done by the shell
# alone. What a program does hangs on src/ of its crates: an edit of specs/ or proofs/ alone calls for no other program.
is_built() {
    [ -x "$program" ] && [ -r "$top/out/${of}sources" ] || return 1
    # shellcheck source=/dev/null
    . "$top/out/${of}sources"
    for file in $sources; do
        [ "$top/$file" -nt "$program" ] && return 1
    done
    return 0
}

# The crates that the programs stand on, and their own.
program_crates() {
    awk -F '[: ]+' -v todo="$programs" '
        !/^#/ && NF { named[$1] = 1; for (nth = 2; nth <= NF; nth++) below[$1] = below[$1] " " $nth }
        END {
            while (split(todo, crates, " ")) {
                todo = ""
                for (nth in crates) if (crates[nth] in named && !(crates[nth] in is_used)) {
                    is_used[crates[nth]] = 1
                    print crates[nth]
                    todo = todo below[crates[nth]]
                }
            }
        }' "$top/crates.txt" | sort
}

# by_way FOLDER: the crates of that copy of the repository, first the one with the longest way of crates that stand on it, in lines.
by_way() {
    for crate in "$1"/crates/*; do
        echo "lines ${crate##*/} $(find "$crate/" \( -name '*.rt' -o -name '*.antt' \) -exec cat {} + | wc -l)"
    done | awk -F '[: ]+' '
        $1 == "lines" { own[$2] = way[$2] = $3; next }
        !/^#/ && NF { for (nth = 2; nth <= NF; nth++) if ($nth in own) above[$nth] = above[$nth] " " $1 }
        END {
            do {
                changed = 0
                for (name in own) {
                    count = split(above[name], crates, " ")
                    for (nth = 1; nth <= count; nth++) if (way[name] < own[name] + way[crates[nth]]) {
                        way[name] = own[name] + way[crates[nth]]
                        changed = 1
                    }
                }
            } while (changed)
            for (name in own) print way[name], name
        }' - "$1/crates.txt" | sort -rn | cut -d " " -f 2
}

# sum_of_sources FOLDER: one number for all that is proved of the programs in that copy of the repository, and for the kit.
sum_of_sources() {
    (
        crates=$(program_crates)
        rt version
        cd "$1" || exit 1
        for crate in $crates; do
            grep "^${crate}[ :]" crates.txt
            find "crates/$crate/src" "crates/$crate/specs" "crates/$crate/proofs" -type f 2>/dev/null | LC_ALL=C sort | xargs -r sha256sum
        done
    ) | sha256sum | cut -d ' ' -f 1
}

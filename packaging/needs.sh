# Sourced by the scripts beside it.
# shellcheck shell=sh

# needs SCRIPT THING:PACKAGE..: ends the script where a command or file is missing, after naming Debian's package for each; - is for the kit.
needs() {
    script=$1 missing=
    shift
    for it; do
        case ${it%:*} in
        /*) [ ! -e "${it%:*}" ] || continue ;;
        *) ! command -v "${it%:*}" >/dev/null || continue ;;
        esac
        if [ "${it##*:}" = - ]; then
            echo "$script: no ${it%:*} on this machine: install the Rattle kit first" >&2
            missing=${missing:--}
        else
            echo "$script: no ${it%:*} on this machine" >&2
            missing="${missing#-} ${it##*:}"
        fi
    done
    [ "$missing" ] || return 0
    [ "$missing" = - ] || echo "$script: apt-get install$missing" >&2
    exit 1
}

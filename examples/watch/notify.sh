#!/bin/sh
# Tells somebody of each line of a watch that must not be missed: hs_watch COMMITTEE OUTDIR SOURCE.. | examples/watch/notify.sh COMMAND..
#
# COMMAND is run for each such line, with the line on its standard input, as `mail -s watch operator@example.org` is. Each run is a process
# of its own, so none waits for one before it: a culprit is told at once, whatever else is told. Of one source that goes back again and
# again, and of lines that were lost, COMMAND is told once in ten minutes. All lines go on to standard output.
told=$(mktemp -d) || exit 2
trap 'rm -rf "$told"' EXIT

# Whether a line that begins so was told in the last ten minutes. Notes that it is told now.
was_told() {
    now=$(date +%s)
    last=$(cat "$told/$1" 2>/dev/null) || last=0
    [ $((now - last)) -lt 600 ] || { printf '%s\n' "$now" >"$told/$1"; return 1; }
}

tell() {
    line=$1
    shift
    { printf '%s\n' "$line" | "$@" || printf 'not told: %s\n' "$line" >&2; } &
}

while IFS= read -r line; do
    printf '%s\n' "$line"
    news=${line#* round * }
    # Of a watch that goes over each line has its committee's number, and a handover is nothing to be told.
    case "$news" in
        "committee "*) news=${news#committee [0-9]* } over=yes ;;
        *) over= ;;
    esac
    case " $news " in
        " handover "*) [ "$over" ] || tell "$line" "$@" ;;
        " conflict "* | " culprit "* | " unstored "* | " beyond "* | " set-aside "* | " stays "* | " wrong-next "*) tell "$line" "$@" ;;
        " went-back "*)
            source=" $line"
            source=${source#* went-back }
            was_told "went-back-${source%% *}" || tell "$line" "$@"
            ;;
        " lost "*) was_told lost || tell "$line" "$@" ;;
    esac
done
wait

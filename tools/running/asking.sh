# shellcheck shell=sh
# How ./shrinkers asks the program, and what it says of a status that isn't 0. Sourced by ./shrinkers.
# shellcheck disable=SC2154

LONGEST_SCRIPT=4194304
LONGEST_AUDIT=67108864
room=
child=

clean() {
    [ -z "$room" ] || rm -rf "$room"
    room=
}

# A signal ends the child, removes what was made, and ends this too.
stop() {
    trap '' HUP INT TERM
    # The child was started, and its number isn't noted yet.
    if [ "$child" = starting ]; then
        child=${!-}
        [ "$child" != "$before" ] || child=
    fi
    if [ -n "$child" ]; then
        # Between its start and its first step a child may miss a signal. It is gone, or waits to be waited for, without `exe`.
        while kill "$child" 2> /dev/null && [ -e "/proc/$child/exe" ]; do sleep 0.1; done
        wait "$child" 2> /dev/null
    fi
    clean
    exit $((128 + $1))
}

trap clean EXIT
trap 'stop 1' HUP
trap 'stop 2' INT
trap 'stop 15' TERM
# A job in the background has no standard input of its own.
if [ -e /proc/self/fd/0 ]; then exec 3<&0; else exec 3< /dev/null; fi

# Runs a command so that a signal ends both.
watched() {
    before=${!-}
    child=starting
    "$@" <&3 3<&- 4<&- &
    child=$!
    wait "$child"
    ended=$?
    child=
    return "$ended"
}

make_room() {
    [ -n "$room" ] || room=$(mktemp -d) || exit 1
}

# What is said of a status; $1 names the input, $2 is the form, $3 the status.
tell() {
    case $3 in
        3) echo "shrinkers: $1: the input could not be read (status 3)" >&2 ;;
        4) echo "shrinkers: $1: the output could not be written whole (status 4); what was written is its beginning" >&2 ;;
        6) echo "shrinkers: $1: there is not enough memory (status 6); nothing was written" >&2 ;;
        7)
            [ "$2" = audit ] && most=67,108,864 || most=4,194,304
            echo "shrinkers: $1 is longer than $most bytes (status 7); nothing was written" >&2 ;;
        0 | 5 | 8) ;;
        *) echo "shrinkers: $1: the program ended with status $3" >&2 ;;
    esac
}

# Says on standard error what is wrong with a script, or with a report: by tools/explain, or else where to look.
explain() {
    if [ -x "$top/tools/explain" ] && said=$("$top/tools/explain" "$@" 2> /dev/null; code=$?; [ $code -eq 5 ] || [ $code -eq 8 ]); then
        printf '%s\n' "$said" >&2
    else
        echo "shrinkers: docs/FORMATS.md says what a refusal means, and docs/LAWS.md what each law asks" >&2
    fi
}

# Opens a file as the program's input, or says why not.
open_file() {
    if [ "$1" = - ]; then return 0; fi
    if [ ! -e "$1" ]; then why="there is no such file"
    elif [ -d "$1" ]; then why="that is a folder, and a file is wanted"
    elif [ ! -r "$1" ]; then why="the file may not be read"
    else return 0; fi
    echo "shrinkers: $1: $why" >&2
    return 3
}

# Tells a person at a terminal that the input is awaited.
await() {
    [ ! -t 3 ] || echo "shrinkers: reads $1 from the terminal; Ctrl-D at the start of a line ends it" >&2
}

# Makes fd 3 a copy of standard input that can be opened a second time, of at most one byte more than the program takes.
keep_input() {
    if [ -f /proc/self/fd/3 ] || [ -d /proc/self/fd/3 ]; then return; fi
    make_room
    kept=$room/input
    watched head -c "$(($1 + 1))" > "$kept" || { tell "standard input" run 3; exit 3; }
    exec 3< "$kept"
}

# Runs one script; $1 is its name for people. The script is fd 3.
run_one() {
    watched "$chosen" run
    status=$?
    tell "$1" run "$status"
}

# The script of a file, or that on standard input.
run_file() {
    open_file "$1" || { status=$?; return; }
    if [ "$1" = - ]; then
        await "a script"
        name="standard input"
    else
        exec 3< "$1"
        name=$1
    fi
    keep_input "$LONGEST_SCRIPT"
    run_one "$name"
    if [ "$status" -ne 5 ]; then return; fi
    if [ -f "$1" ]; then explain "$1"; else explain - < /proc/self/fd/3; fi
}

# The file that the report of a script goes to.
report_of() {
    [ "$1" = - ] && name=standard-input || name=${1##*/}
    echo "$2/${name%.script}.report"
}

# Runs a script, and puts what was written into a file of a folder once it is whole.
run_into() {
    make_room
    run_file "$1" > "$room/report"
    case $status in
        0 | 5) ;;
        *) return ;;
    esac
    if ! mv -f "$room/report" "$(report_of "$1" "$folder")"; then status=4; fi
}

# Whether two scripts would write the same report, or standard input is named twice.
judge_files() {
    listed=
    for file in "$@"; do
        case $file in -?*) wrong "run: $file is no option, and a file whose name begins with a hyphen is written ./$file" ;; esac
        [ -n "$file" ] || wrong "run: the name of a file is empty"
        if [ -n "$folder" ]; then target=$(report_of "$file" "$folder"); else target=$file; fi
        case $listed in *"
$target
"*) if [ -n "$folder" ] || [ "$file" = - ]; then wrong "run: two scripts have one report, $target"; fi ;; esac
        listed="$listed
$target
"
    done
}

serve_run() {
    folder=
    if [ "${1-}" = -o ]; then
        [ -n "${2-}" ] || wrong "run: -o wants a folder behind it"
        folder=$2
        shift 2
        [ $# -gt 0 ] || wrong "run: -o wants scripts behind the folder"
    fi
    judge_files "$@"
    worst=0
    if [ $# -eq 0 ]; then set -- -; fi
    for file in "$@"; do
        # A file that isn't there is told before a build.
        open_file "$file" || { worst=$?; [ $# -gt 1 ] || exit "$worst"; }
    done
    if [ -n "$folder" ]; then mkdir -p "$folder" || exit 4; fi
    choose run
    exec 4<&3
    for file in "$@"; do
        exec 3<&4
        if [ -n "$folder" ]; then run_into "$file"; else run_file "$file"; fi
        [ "$worst" -ne 0 ] || worst=$status
    done
    exit "$worst"
}

serve_gen() {
    choose gen
    watched "$chosen" gen "$@"
    status=$?
    tell "gen $*" gen "$status"
    exit "$status"
}

# The script is the input up to the first line `end`, and the report is the rest.
split_input() {
    LC_ALL=C sed '/^end$/q' < "$1" > "$room/script"
    tail -c "+$(($(wc -c < "$room/script") + 1))" < "$1" > "$room/report"
}

# Judges the script and the report of fd 3; the words name the two files, if they are files.
audit_input() {
    watched "$chosen" audit
    status=$?
    tell "$name" audit "$status"
    if [ "$status" -eq 5 ] || [ "$status" -eq 8 ]; then
        if [ $# -ne 2 ]; then
            make_room
            split_input /proc/self/fd/3
            set -- "$room/script" "$room/report"
        fi
        explain "$@"
    fi
    exit "$status"
}

# Makes fd 3 a script with a report behind it, of two files.
join_files() {
    make_room
    for file in "$@"; do
        [ "$file" != - ] || { await "a script or a report"; watched head -c "$((LONGEST_AUDIT + 1))" > "$room/given"; }
    done
    for file in "$@"; do
        if [ "$file" = - ]; then cat "$room/given"; else cat "$file"; fi
    done | head -c "$((LONGEST_AUDIT + 1))" > "$room/input"
    exec 3< "$room/input"
}

serve_audit() {
    case $# in
        0 | 2) ;;
        *) wrong "audit: a script and a report are wanted, as two files or behind one another on standard input; there are $# words" ;;
    esac
    for file in "$@"; do
        case $file in -?*) wrong "audit: $file is no option, and a file whose name begins with a hyphen is written ./$file" ;; esac
        open_file "$file" || exit
    done
    if [ $# -eq 0 ]; then
        name="standard input"
        choose audit
        await "a script and a report"
        keep_input "$LONGEST_AUDIT"
        audit_input
    fi
    [ "$1$2" != -- ] || wrong "audit: - stands for one of the two files"
    name="$1 and $2"
    choose audit
    join_files "$@"
    if [ -f "$1" ] && [ -f "$2" ]; then audit_input "$@"; else audit_input; fi
}

# shellcheck shell=sh
# The words of ./shrinkers: its forms, and what is wrong with words of none. Sourced by ./shrinkers.

forms() {
    cat <<'END_OF_FORMS'
usage: ./shrinkers run < SCRIPT > REPORT       runs a script, and writes its report
       ./shrinkers run [-o FOLDER] FILE..      the same for each of these scripts; FOLDER gets a report each
       ./shrinkers gen SEED WORKERS COMMANDS   makes a script of three numbers, runs it, and writes five lines
       ./shrinkers audit < SCRIPT-AND-REPORT   judges a report
       ./shrinkers audit SCRIPT REPORT         the same for two files
       ./shrinkers --prove                     proves and builds the program, which takes hours
       ./shrinkers --built                     prints the path of the proved program
       ./shrinkers --check                     runs about a hundred cases of the suite
       ./shrinkers --suite                     runs all cases
       ./shrinkers --version                   the commit, the kit, and what is built
END_OF_FORMS
}

help_of() {
    case $1 in
        run) cat <<'END_OF_HELP'
usage: ./shrinkers run < SCRIPT > REPORT
       ./shrinkers run [-o FOLDER] FILE..

Runs a script on threads and writes its report. FILE is a script, and - is standard input. The reports of several scripts stand
one after another on standard output; with -o the report of NAME.script goes to FOLDER/NAME.report. The exit status is the
first that isn't 0: 2 wrong words, 3 the input failed, 4 the output failed, 5 the script is refused, 6 no memory, 7 the script
is longer than 4,194,304 bytes. docs/FORMATS.md has scripts and reports, and examples/ has some.
END_OF_HELP
            ;;
        gen) cat <<'END_OF_HELP'
usage: ./shrinkers gen SEED WORKERS COMMANDS

Makes a script of three numbers, runs it, and writes five lines. SEED is at most 18446744073709551615. There are 1 to 63
workers with at least one command each, and at most 20000 commands in all. A number has no sign and no leading zero.
END_OF_HELP
            ;;
        audit) cat <<'END_OF_HELP'
usage: ./shrinkers audit < SCRIPT-AND-REPORT
       ./shrinkers audit SCRIPT REPORT

Judges a report by its script, and writes `lawful`, or the first law that is broken (exit status 8), or why the two are refused
(exit status 5). One of the two files may be -, standard input. docs/LAWS.md has the laws.
END_OF_HELP
            ;;
        --prove) echo "usage: ./shrinkers --prove    proves every crate that the program stands on, and builds it; this takes hours" ;;
        --built) echo "usage: ./shrinkers --built    prints the proved program's path if it is of the sources as they stand, else why not (status 1)" ;;
        --suite) echo "usage: ./shrinkers --suite    runs each case of suite/ and each example of one worker; the lines are TAP" ;;
        --check) echo "usage: ./shrinkers --check    runs the cases that suite/few lists; the lines are TAP; it proves nothing" ;;
        --version | -V) echo "usage: ./shrinkers --version    says the commit, the kit, and whether the built programs are of these sources" ;;
    esac
}

# Ends with what is wrong with the words.
wrong() {
    echo "shrinkers: $1; './shrinkers help' has the forms" >&2
    exit 2
}

# Whether a word is a number without a sign and without a leading zero.
is_number() {
    case $1 in
        0) return 0 ;;
        '' | 0* | *[!0123456789]*) return 1 ;;
    esac
}

# Whether a number is above another one of so many digits.
is_above() {
    [ ${#1} -ge ${#2} ] || return 1
    [ ${#1} -eq ${#2} ] || return 0
    LC_ALL=C expr "x$1" \> "x$2" > /dev/null
}

# Whether a word after `gen` is a number; $1 says which one it is.
judge_number() {
    case $2 in
        0?*) if is_number "${2#0}"; then wrong "gen: $1 $2 has a leading zero"; fi ;;
        [+-]*) wrong "gen: $1 $2 begins with a sign" ;;
    esac
    is_number "$2" || wrong "gen: $1 '$2' is no number"
}

# The program's own rule, by which a script is made of three numbers.
judge_gen() {
    [ $# -ge 3 ] || wrong "gen: three numbers are wanted, SEED WORKERS COMMANDS, and there are $#"
    [ $# -eq 3 ] || wrong "gen: three numbers are wanted, SEED WORKERS COMMANDS, and there are $# words"
    judge_number SEED "$1"
    judge_number WORKERS "$2"
    judge_number COMMANDS "$3"
    if is_above "$1" 18446744073709551615; then wrong "gen: seed $1, at most 18446744073709551615 is allowed"; fi
    if [ "$2" = 0 ] || is_above "$2" 63; then wrong "gen: $2 workers, 1 to 63 are allowed"; fi
    if [ "$3" = 0 ] || is_above "$3" 20000; then wrong "gen: $3 commands, 1 to 20000 are allowed"; fi
    if [ $(($2 * $3)) -gt 20000 ]; then
        wrong "gen: $2 workers with $3 commands each are $(($2 * $3)) commands, 20000 are allowed"
    fi
}

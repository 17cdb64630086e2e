# shellcheck shell=sh
# shellcheck disable=SC2154 # the script of the program sets what isn't assigned here
# Runs a proved program on the caller's words, from the caller's own folder, with its output and
# status unchanged. The script of the program sources this file. It sets
#   self, root    its own path with no link in it, and the repository's folder
#   crate         the program's crate
#   usage         the line that says how the program is called
#   tells         what a refusal tells: `words` alone, or `both`, the file and then words
#   takes         `bytes` where words need not be UTF-8 once the program is built
#   is_command    a function: whether its arguments are a command of the program
# and is_command sets
#   looks         `alone` where the command reads its files and nothing else; `named` where it
#                 gets their names, as they were given (unproved: their absolute paths); `around`
#                 where it looks at other files too, by the absolute path of its file, and `within`
#                 where it does so by the path of a folder, with a manifest in it
#   files         how many of the last words are its files: 1 if it isn't set
#
# - Words that are no command print the usage line on standard error, with status 2.
# - Words that ask for help or the version are answered at once, also where nothing is built: by
#   docs/help, which keeps what the program prints (scripts/pages), and by the file VERSION.
# - The program is run where it is built and newer than every source that it stands on, whoever
#   built it (scripts/stale).
# - Else the words are answered unproved, by `rt try` (scripts/answer), as one line on standard
#   error says. Standard output, the faults and the status are those of the program. A file that
#   can't be read is told at once.
# - The one word `--build` proves and builds the program (scripts/building.py), and runs nothing.
#
# Status 4 is of this script alone, and no program of the repository ends with it:
# - the program isn't built, and the unproved run gives no answer: it asks for `--build`;
# - `--build` fails;
# - what it needs isn't there.
# A run that is ended by a signal ends by that signal.
#
# A command that looks around FILE gets FILE's absolute path, so that all folders above are written
# in it: that of the caller's folder as it lies on the disk, then FILE's own path, whose links stay
# and whose `..` are taken back. So Cargo takes such a path too. Where FILE's path goes back from
# behind a link, its links are resolved, since its text leads to another folder than the disk.
# A path that leads to nothing, is no text or too long stays as it is written.

name=${self##*/}
built=$root/crates/$crate/out/$crate

say() {
    printf '%s: %s\n' "$name" "$1" >&2
}

# Whether a text is UTF-8, which the program asks of its words.
is_text() {
    case $1 in
        *[!-a-zA-Z0-9_./\ ]*)
            ! command -v iconv > /dev/null ||
                printf '%s' "$1" | iconv -f UTF-8 -t UTF-8 > /dev/null 2>&1
            ;;
    esac
}

# Prints the absolute path of a file in a folder that can be entered, and a dot after it, which
# keeps a line feed at its end.
absolute() (
    case $1 in
        */*) folder=${1%/*}/ ;;
        *) folder=./ ;;
    esac
    CDPATH=''
    cd -P -- . && path=$(cd -P -- "$folder" && printf '%s.' "$PWD") || exit
    if [ "$(cd -L -- "$folder" && cd -P -- . && printf '%s.' "$PWD")" = "$path" ]; then
        path=$(cd -L -- "$folder" && printf '%s.' "$PWD")
    fi
    path=${path%.}
    printf '%s/%s.' "${path%/}" "${1##*/}"
) 2> /dev/null

# Ends the run where a tool isn't there, and says what to do.
need() {
    if ! command -v "$1" > /dev/null; then
        say "the proved program $why, and \`$1\` is not on the PATH: $2"
        exit 4
    fi
}

# What stands in for the program: scripts/answer or scripts/building.py, with the words it takes
# further.
stand_in() {
    need python3 "install the system's package \`python3\`"
    need rt 'it is in `bin` of the Rattle kit, so put that folder on the PATH'
    task=$1
    shift
    set -- python3 "$root/scripts/$task" "$self" "$crate" "$0" "$@"
    exec "$@"
}

if [ "$#:${1-}" = 1:--build ]; then
    if why=$("$root/scripts/stale" "$root" "$crate"); then
        say 'the proved program is built, and newer than its sources'
        exit 0
    fi
    stand_in building.py
fi

# Prints the text that the words ask for, where that is the version or help.
asked_text() {
    case $#:${1-} in
        1:-V | 1:--version)
            printf '%s ' "$name" && cat "$root/VERSION"
            return
            ;;
        1:-h | 1:--help) page=$name ;;
        1:help)
            [ "$name" = cargo-toml-tools ] || return
            page=$name
            ;;
        2:help) page=$name-$2 ;;
        2:*)
            [ "$2" = -h ] || [ "$2" = --help ] || return
            page=$name-$1
            ;;
        *) return 1 ;;
    esac
    case $page in
        "$name" | "$name-"[!-]*) cat "$root/docs/help/${page##*/}" ;;
        *) false ;;
    esac
}

if text=$(asked_text "$@" 2> /dev/null); then
    if "$root/scripts/stale" "$root" "$crate" > /dev/null; then exec "$built" "$@"; fi
    printf '%s\n' "$text"
    exit 0
fi
files=1
if ! is_command "$@" || { [ "$takes" = text ] && ! is_text "$*"; }; then
    printf '%s\n' "$usage" >&2
    exit 2
fi
case $looks in around | within)
    left=$#
    for word; do
        shift
        if [ "$left" -le "$files" ] && path=$(absolute "$word"); then
            path=${path%.}
            if [ -n "$word" ] && [ -e "$path" ] && is_text "$path"; then word=$path; fi
        fi
        set -- "$@" "$word"
        left=$((left - 1))
    done
    ;;
esac

if why=$("$root/scripts/stale" "$root" "$crate"); then
    exec "$built" "$@"
fi
stand_in answer "$looks" "$tells" "$files" "$why" "$@"

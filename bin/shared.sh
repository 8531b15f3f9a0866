# shellcheck shell=bash
# What the commands in bin/ share: each of them reads this file, and nothing runs it. All are alike: results on standard output, complaints on standard
# error that name the program and what to do, exit status 0 well, 1 refused or stopped, 2 could not run.
#
# A command reads this file and says what it is:
#     usage      how it is called, as 'bin/play [FILE]'
#     about      what it does: the lines that --help writes below that
#     program    the program that it runs, where that has another name than the command
#     options    its options, if it has any, each with a word behind it: '--pty --log'
# Then it calls, in this order:
#     take "$@"            answers --help; `given[--pty]` is the word behind an option, `words` are all the others
#     at_most N            there may be no more words than that
#     input_from NAME      that file is standard input; with no name, or with -, it stays as it is
#     run ARGUMENT ..      proves, builds and runs the program; the file `kept` is what it wrote to standard output, `said`
#                          what it wrote to standard error, which is passed on
# A main has no exit status of its own: what it wrote tells how it went. So last comes `made`, for a program that writes a result or a refusal, or `judged`,
# for one whose lines are the result: they judge what was kept, copy it out and end with the status.
set -u
self=$(readlink -f "$0")
name=${self##*/}
program=$name
top=$(dirname "$(dirname "$self")")
usage=''
about=''
options=''
words=()
declare -A given=()

say() { # WORD ..
    printf '%s: %s\n' "$name" "$*" >&2
}

cannot() { # WORD ..
    say "$@"
    exit 2
}

wrong_usage() { # WORD ..
    say "$@"
    printf 'usage: %s (bin/%s --help tells more)\n' "$usage" "$name" >&2
    exit 2
}

# What is closed would be taken by the next file that is opened.
output_is_open() {
    { : 3>&1; } 2>/dev/null || cannot "standard output is closed"
}

# Standard input, copied to standard output. A reader that has gone is an output that cannot be written.
copy_out() {
    cat 2>/dev/null || cannot "the output cannot be written: the disk is full, or who reads it has gone; what is there is not whole"
}

take() { # WORD ..
    while [ $# -gt 0 ]; do
        case $1 in
            -h | --help)
                output_is_open
                printf 'usage: %s\n%s\n' "$usage" "$about" | copy_out
                exit
                ;;
            --)
                shift
                words+=("$@")
                break
                ;;
            -?*)
                [[ " $options " == *" $1 "* ]] || wrong_usage "no option $1"
                [ $# -gt 1 ] || wrong_usage "$1 needs a word behind it"
                given[$1]=$2
                shift
                ;;
            *) words+=("$1") ;;
        esac
        shift
    done
}

at_most() { # N
    [ "${#words[@]}" -le "$1" ] || wrong_usage "a word too many: ${words[$1]}"
}

# That a file can be read, before anything is proved.
readable() { # NAME
    [ -e "$1" ] || cannot "no such file: $1"
    [ ! -d "$1" ] || cannot "a folder, not a file: $1"
    [ -r "$1" ] || cannot "not to be read by you: $1"
}

# A program names a file by a text, in UTF-8. A file of another name is opened by the command, and goes by its descriptor.
is_text() { # NAME
    printf '%s' "$1" | iconv -f UTF-8 -t UTF-8 >/dev/null 2>&1
}

input_from() { # [NAME]
    [ "${1--}" != - ] || return 0
    readable "$1"
    { exec <"$1"; } 2>/dev/null || cannot "cannot be opened: $1"
}

run() { # ARGUMENT ..
    output_is_open
    { : 3<&0; } 2>/dev/null || cannot "standard input is closed: name a file"
    "$top/tools/prove-program" "$program" "$name" || exit 2
    kept=$(mktemp 2>/dev/null) || cannot "no file can be made in ${TMPDIR:-/tmp}: make room there"
    trap 'rm -f "$kept"' EXIT
    [ ! -t 0 ] || say "reads what you type, up to Ctrl-D; bin/$name --help tells how to name a file"
    # by way of cat, which tells of a disk that is full: a main does not
    local ends
    ends=$(
        exec 2>&1
        "$top/tools/run-program" "$program" "$@" | cat 2>/dev/null >"$kept"
        printf '\n%s' "${PIPESTATUS[*]}"
    )
    said=${ends%$'\n'*}
    ends=${ends##*$'\n'}
    [ "${ends#* }" -eq 0 ] || cannot "what the program writes cannot be kept: make room in ${TMPDIR:-/tmp}"
    printf '%s' "$said" >&2
    [ "${ends% *}" -eq 0 ] || cannot "the program could not run: it ended with status ${ends% *}"
}

# For a program that writes its result to standard output or, to standard error, one line that refuses, of this form. Only a whole result goes out.
made() { # REFUSAL
    if [ -n "$said" ]; then
        [[ $said =~ ^($1)$'\n'$ ]] && [ ! -s "$kept" ] && exit 1
        exit 2
    fi
    [ -s "$kept" ] || cannot "the program wrote nothing"
    copy_out <"$kept"
    exit 0
}

# For a program whose lines are the result: they go out, and the status is 0 if all of them are of the first form, 1 if they are of the other. Where to read
# on goes to standard error then.
judged() { # WELL OTHERWISE
    local wrote last
    copy_out <"$kept"
    # the full stop keeps the last line's end
    wrote=$(cat "$kept"; echo .)
    [[ $wrote =~ ^($1)$'\n'\.$ ]] && exit 0
    if [[ $wrote =~ ^($2)$'\n'\.$ ]]; then
        last=${wrote%$'\n'.}
        say "docs/COMMANDS.md tells what \"${last##*$'\n'}\" means and what to do"
        exit 1
    fi
    [ -n "$said" ] || say "what the program wrote has no end that is known"
    exit 2
}

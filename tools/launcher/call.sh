# shellcheck shell=sh disable=SC2154
# What a call has beside the program's own words: a file's name as one word more is that file as input, and a terminal is told what is
# amiss; and each word has its own help. $program is the program, $words the file that says what each word does. This file is read by ./fire
# and by the launcher that is installed.

# (a name may have bytes that would upset a terminal)
note() {
    printf 'fire: %s\n' "$(printf %s "$*" | LC_ALL=C tr -c ' -~' '?')" >&2
}

usage() {
    note "usage: fire $*"
    exit 2
}

# Ends if a tool is not there.
must_have() {
    command -v "$1" >/dev/null && return
    note "$1 is not on the path"
    exit 1
}

# Writes a file; the note of a failed output is the program's.
show() {
    must_have cat
    cat "$1" 2>/dev/null
}

# Whether it is a word that has help of its own.
is_word() {
    case $1 in '' | *[!a-z]*) return 1 ;; esac
    must_have grep
    grep -qxF -e "== $1" "$words"
}

# `help WORD`, and `--help` or `-h` after a word and what its form has besides: what that word reads and writes, and how it ends. It needs
# no program.
help_of() {
    [ $# -gt 1 ] || return
    eval "last=\${$#}"
    case $#:$1:$last in
    2:help:*) asked=$2 ;;
    *:--help | *:-h) asked=$1 ;;
    *) return ;;
    esac
    if ! is_word "$asked"; then
        note "there is no word $asked; fire help lists them"
        exit 2
    fi
    must_have sed
    sed -n "/^== $asked\$/,/^== /{/^== /d;p;}" "$words" 2>/dev/null && exit 0
    write_fault
}

write_fault() {
    echo 'write fault' >&2
    exit 6
}

# Sets $reads to what the words' form reads from standard input (nothing, if it reads none), and $length to how many words the form has.
form_of() {
    reads='' length=1
    case $1 in
    run | trace | dub | check) reads=script ;;
    explain | decode | json | page | dv | audit | holders | watch | map) reads=log ;;
    convert) case ${2-} in 1 | 2) reads=log length=2 ;; esac ;;
    esac
    case "$1 ${2-}" in 'map dot') length=2 ;; esac
}

# Ends with the status of a failed input, and one line that says why, if this file cannot be read.
must_be_readable() {
    if [ -d "$1" ]; then
        note "$1 is a folder"
    elif [ ! -e "$1" ]; then
        note "there is no file $1"
    elif [ ! -r "$1" ]; then
        note "$1 cannot be read"
    else
        return
    fi
    exit 5
}

# A log and blocks are binary: at a terminal they are of no use to anyone, and may upset it.
must_not_be_a_terminal() {
    [ -t 1 ] || return 0
    case $1 in
    run | convert) note "the output is binary: pipe it into fire explain, or into a file" ;;
    dub) note "the output is binary: pipe it into a file" ;;
    *) return ;;
    esac
    exit 2
}

# Writes the program's version, and which build it is: the first digits of its checksum, as the first line of dist/SOURCES has it.
tell_version() {
    "$program" version || exit
    command -v b2sum >/dev/null || exit 0
    echo "build $(b2sum -l 256 <"$program" | cut -c 1-12)" 2>/dev/null || write_fault
    exit 0
}

# Calls the program with words that read no input, or may be none of its own: after `usage` a line says where to look.
ask() {
    "$program" "$@"
    ended=$?
    if [ $ended = 2 ]; then
        if is_word "$1"; then note "fire help $1 has the forms of $1"; else note "there is no word $1; fire help lists them"; fi
    fi
    exit $ended
}

# Calls the program with these words, with the last as the input if it is one word more than their form has.
call() {
    # (a file that has reached its largest size is a write fault, and ends no call)
    command trap '' XFSZ 2>/dev/null
    if [ $# = 0 ]; then
        "$program" help >&2
        exit 2
    fi
    # (its words have no number of their own, so none of them is a file's name)
    case $#:$1 in 1:version | 1:--version | 1:-V) tell_version ;; esac
    case $1 in
    explore)
        [ $# = 1 ] || [ ! -t 0 ] || note "explore reads a script from the terminal: Ctrl-D ends it"
        ask "$@"
        ;;
    esac
    form_of "$@"
    [ -n "$reads" ] || ask "$@"
    eval "last=\${$#}"
    case $(($# - length)) in
    0)
        must_not_be_a_terminal "$1"
        [ ! -t 0 ] || note "$1 reads a $reads from the terminal: Ctrl-D ends it"
        exec "$program" "$@"
        ;;
    1)
        # (a word such as --help is no file's name, and the program refuses it)
        case $last in -*) ask "$@" ;; esac
        must_be_readable "$last"
        must_not_be_a_terminal "$1"
        case $length in
        1) exec "$program" "$1" <"$last" ;;
        2) exec "$program" "$1" "$2" <"$last" ;;
        esac
        ;;
    *) ask "$@" ;;
    esac
}

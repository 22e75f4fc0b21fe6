#!/bin/sh
# Tries the launcher as users call it: by a link, in a copy, in a folder with blanks, with files, with outputs that fail, with a changed
# source, installed and uninstalled, from two calls at once. It needs sh and coreutils; what needs more is skipped, and that is said.
#
#     tools/launcher/check.sh
#
# The last line counts what passed and what failed; the status is 0 if nothing failed.
root=$(CDPATH='' cd -- "$(dirname -- "$0")/../.." && pwd) || exit 1
room=$(mktemp -d) || exit 1
trap 'rm -rf "$room"' EXIT
trap 'exit 130' INT TERM
passed=0 failed=0

# Whether what was found is what is due.
is() {
    if [ "$2" = "$3" ]; then
        passed=$((passed + 1))
    else
        failed=$((failed + 1))
        echo "WRONG $1: due was '$2', found '$3'"
    fi
}

skipped() {
    echo "launcher: skipped, $*"
}

# The status of a call, with what it writes in $room/out and $room/err.
status() {
    "$@" >"$room/out" 2>"$room/err" </dev/null
    echo $?
}

errors() {
    cat "$room/err"
}

# A checkout of its own, without what was built in it, as a fresh clone has it; the folders' names have blanks.
copied() {
    mkdir -p "$1" && (cd "$root" && tar -cf - --exclude=out --exclude=.git .) | tar -xf - -C "$1"
}

here="$room/a copy"
copied "$here" || exit 1
script=$here/examples/one_deck.script
log=$here/examples/one_deck.log

# Without the toolchain: only what this needs of the path.
mkdir "$room/bin"
for tool in sh cat b2sum readlink mkdir rm cp chmod rmdir awk find sort sed date wc nproc mktemp grep xargs cmp head tail dirname ls tar mv flock tee ln touch paste tr cut; do
    at=$(command -v "$tool") && ln -s "$at" "$room/bin/$tool"
done
PATH=$room/bin
export PATH
unset PYTHONDONTWRITEBYTECODE

# The log of the example, whatever the way to it.
runs() {
    what=$1
    shift
    "$@" run <"$script" >"$room/out" 2>"$room/err"
    is "$what: status" 0 $?
    cmp -s "$room/out" "$log"
    is "$what: its log" 0 $?
}

first_calls() {
    runs 'a fresh copy' "$here/fire"
    is 'a fresh copy says nothing' '' "$(errors)"
    is 'and writes nothing beside' no "$([ -e "$here/crates/fire/out" ] && echo yes || echo no)"
    "$here/fire" run <"$script" | "$here/fire" explain >"$room/out"
    cmp -s "$room/out" "$here/examples/one_deck.txt"
    is 'two calls at once' 0 $?
}

from_anywhere() {
    ln -s "$here/fire" "$room/link"
    runs 'a link' "$room/link"
    ln -s 'a copy/fire' "$room/relative"
    cd "$room" || exit 1
    runs 'a relative link' ./relative
    cd "$here" || exit 1
    runs 'sh fire' sh fire
    cd "$root" || exit 1
    is 'the version by a link' 'fire 1.0' "$("$room/link" version | head -n 1)"
    is 'and its build' "build $(head -c 12 "$here/dist/SOURCES")" "$("$room/link" version | tail -n 1)"
    is 'no folders beside a link' no "$([ -e "$room/crates" ] && echo yes || echo no)"
    cp -r "$here" "$room/cp" && find "$room/cp" -name '*.rt' -exec touch {} +
    runs 'cp -r, and every file touched' "$room/cp/fire"
    rm -rf "$room/cp"
}

with_files() {
    is 'a file' 0 "$(status "$here/fire" run "$script")"
    cmp -s "$room/out" "$log"
    is 'a file: its log' 0 $?
    is 'check of a file' 0 "$(status "$here/fire" check "$script")"
    cp "$log" "$room/x y.log"
    is 'a file with a blank' 0 "$(status "$here/fire" convert 2 "$room/x y.log")"
    cmp -s "$room/out" "$log"
    is 'a file with a blank: its log' 0 $?
    is 'map dot of a file' 0 "$(status "$here/fire" map dot "$log")"
    is 'no file: status' 5 "$(status "$here/fire" explain "$room/none")"
    is 'no file: note' "fire: there is no file $room/none" "$(errors)"
    is 'a folder: status' 5 "$(status "$here/fire" run "$room")"
    is 'a folder: note' "fire: $room is a folder" "$(errors)"
    is 'a file for a word that reads none' 2 "$(status "$here/fire" gen 1 "$script")"
    is 'two files' 2 "$(status "$here/fire" run "$script" "$script")"
    is 'an option' 2 "$(status "$here/fire" run --fast)"
    is 'another word' 2 "$(status "$here/fire" walk)"
    is 'another word: notes' 'usage fire: there is no word walk; fire help lists them' "$(errors | paste -s -d ' ')"
    is 'a wrong number' 2 "$(status "$here/fire" gen 01)"
    is 'a wrong number: notes' 'usage fire: fire help gen has the forms of gen' "$(errors | paste -s -d ' ')"
    is 'no words: status' 2 "$(status "$here/fire")"
    cmp -s "$room/err" "$here/crates/fire_sessions/data/help.txt"
    is 'no words: help' 0 $?
}

own_help() {
    is 'help of a word' 0 "$(status "$here/fire" help holders)"
    is 'help of a word: it is of that word' 'fire holders x.log                  or: fire holders < x.log' "$(head -n 1 "$room/out")"
    cp "$room/out" "$room/holders"
    for words in 'holders --help' 'holders -h'; do
        # shellcheck disable=SC2086
        is "$words" 0 "$(status "$here/fire" $words)"
        cmp -s "$room/out" "$room/holders"
        is "$words: the same" 0 $?
    done
    is 'install --help installs nothing' 0 "$(status "$here/fire" install --help)"
    is 'install --help: no folder' no "$([ -e "$here/--help" ] && echo yes || echo no)"
    is 'help of no word' 2 "$(status "$here/fire" help walk)"
    is 'help of no word: note' 'fire: there is no word walk; fire help lists them' "$(errors)"
    is 'help of an expression' 2 "$(status "$here/fire" help 'r.n')"
    is 'help of two words' 2 "$(status "$here/fire" help run dub)"
    "$here/fire" help run >&- 2>"$room/err"
    is 'help of a word to a closed output' 6 $?
}

with_outputs_that_fail() {
    if [ -c /dev/full ]; then
        for word in help version; do
            "$here/fire" $word >/dev/full 2>"$room/err"
            is "$word to a full output" 6 $?
        done
    else
        skipped 'no /dev/full'
    fi
    for word in help version; do
        "$here/fire" $word >&- 2>"$room/err"
        is "$word to a closed output" 6 $?
    done
    (ulimit -f 1 && exec "$here/fire" run) <"$here/examples/dub.script" >"$room/limited" 2>/dev/null
    is 'a file that may not grow' 6 $?
    "$here/fire" run <&- >"$room/out" 2>"$room/err"
    is 'a closed input' 5 $?
}

# Bytes of a name that would upset a terminal are not written to it.
odd_names() {
    odd_name=$(printf '\033[31mx\302\233y')
    for words in '' 'help' 'explain' 'uninstall'; do
        # shellcheck disable=SC2086
        status "$here/fire" $words "$odd_name" >/dev/null
        is "an odd name after '$words'" 0 "$(LC_ALL=C tr -d '\n -~' <"$room/err" | wc -c)"
    done
    is 'two lines are no word' 2 "$(status "$here/fire" help "$(printf 'run\ntrace')")"
    is 'two lines are no word: note' 'fire: there is no word run?trace; fire help lists them' "$(errors)"
    is 'nor without help' 2 "$(status "$here/fire" "$(printf 'run\nx')")"
}

# What bash completes of these words, of which the last is begun.
completed() {
    # shellcheck disable=SC2016
    "$bash" -uc '. "$1"; COMP_WORDS=("${@:2}") COMP_CWORD=$(($# - 2)); _fire "$2" 2>&1; echo "${COMPREPLY[*]-}"' - "$root/tools/completion.bash" "$@"
}

completes() {
    bash=$(PATH=$whole_path command -v bash) || { skipped 'no bash'; return; }
    is 'completed: a word' explore "$(completed fire explo)"
    is 'completed: an option' 'dot --help' "$(completed fire map '')"
    is 'completed: a word that has help' holders "$(completed fire help ho)"
    is 'completed: help' --help "$(completed fire explain -)"
    is 'completed: what explore reads' '' "$(completed fire explore a '<' '')"
    is 'completed: install' install "$(completed ./fire inst)"
    is 'completed: before a word' '' "$(completed fire)"
}

# By script(1), which gives a call a terminal.
at_a_terminal() {
    terminal=$(PATH=$1 command -v script) || { skipped 'no script(1)'; return; }
    SHELL=$(command -v sh) "$terminal" -qec "cat '$script' | '$here/fire' run" "$room/typed" >/dev/null </dev/null
    is 'a binary output at a terminal: status' 2 $?
    is 'a binary output at a terminal: note' 1 "$(grep -c 'the output is binary' "$room/typed")"
    is 'a binary output at a terminal: nothing of it' 0 "$(grep -c 1394 "$room/typed")"
    printf '\004' | SHELL=$(command -v sh) "$terminal" -qec "'$here/fire' decode" "$room/typed" >/dev/null
    is 'a terminal as input' 1 "$(grep -c 'reads a log from the terminal' "$room/typed")"
}

whole_path=$(PATH=/usr/bin:/bin getconf PATH 2>/dev/null || echo /usr/bin:/bin)
first_calls
from_anywhere
with_files
own_help
with_outputs_that_fail
odd_names
. "$root/tools/launcher/check_sources.sh"
. "$root/tools/launcher/check_install.sh"
what_ships_is_stale
what_ships_does_not_run
line_ends_stay
without_tools
installs
wrong_prefixes
strangers_stay
hostile_lists
whole_or_nothing
no_longer_there
packages
completes
at_a_terminal "$whole_path"
echo "launcher: $passed passed, $failed failed"
[ "$failed" = 0 ]

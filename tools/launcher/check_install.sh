# shellcheck shell=sh disable=SC2154
# The part of check.sh that installs and uninstalls: whole or not at all, over nothing that is not fire's, and nothing is left behind.

# What the errors of the last call say of that.
says() {
    is "$1: said" 1 "$(grep -c -e "$2" "$room/err")"
}

# All below a folder, with the checksums of files.
picture() {
    (cd "$1" 2>/dev/null && find . ! -type d -exec b2sum -l 256 {} + && find . -type d) | sort
}

# Its pages name files that are there, and its tools run from where they lie.
points_at_what_is_there() {
    python=$(PATH=$whole_path command -v python3) || { skipped 'no python3'; return; }
    is 'its pages point at what is there' 0 "$("$python" "$root/tools/pointers.py" "$1" >"$room/pointers"; echo $?)"
    grep WRONG "$room/pointers"
    "$1/bin/fire" run <"$script" | "$python" "$1/share/doc/fire/tools/to_nosy.py" 2>/dev/null |
        "$python" "$1/share/doc/fire/tools/from_nosy.py" --cycle-starts 2>/dev/null | "$1/bin/fire" map >"$room/out"
    is 'its tools' "$("$1/bin/fire" map "$log")" "$(cat "$room/out")"
    is 'its tools leave nothing beside them' '' "$(find "$1" -name '__pycache__')"
}

installs() {
    to="$room/a prefix"
    is 'install' 0 "$(status "$here/fire" install "$to")"
    runs 'the installed program' "$to/bin/fire"
    ln -s "$to/bin/fire" "$room/installed"
    runs 'the installed program by a link' "$room/installed"
    is 'the installed program with a file' 0 "$(status "$to/bin/fire" explain "$to/share/doc/fire/examples/one_deck.log")"
    is 'its pages' 'man1/fire.1 man5/fire-log.5 man5/fire-script.5' "$(cd "$to/share/man" && echo man*/*)"
    points_at_what_is_there "$to"
    is 'the help of a word, installed' 0 "$(status "$to/bin/fire" help map)"
    is 'no help of a word of the repository' 2 "$(status "$to/bin/fire" help prove)"
    is 'nor a word of it' 'usage fire: there is no word install; fire help lists them' "$(status "$to/bin/fire" install >/dev/null; errors | paste -s -d ' ')"
    picture "$to" >"$room/first"
    is 'install over it' 0 "$(status "$here/fire" install "$to")"
    is 'install over it: the same' '' "$(picture "$to" | cmp - "$room/first" 2>&1)"
    is 'uninstall' 0 "$(status "$to/bin/fire" uninstall)"
    is 'nothing is left' no "$([ -e "$to" ] && echo yes || echo no)"
    is 'uninstall of nothing' 1 "$(status "$here/fire" uninstall "$to")"
    is 'install with the plugin' 0 "$(status "$here/fire" install --wireshark "$to")"
    is 'the plugin' yes "$([ -f "$to/lib/wireshark/plugins/fire1394/fire1394/packets.lua" ] && echo yes || echo no)"
    is 'install without it' 0 "$(status "$here/fire" install "$to")"
    is 'the plugin is gone' no "$([ -e "$to/lib/wireshark/plugins/fire1394/fire1394.lua" ] && echo yes || echo no)"
    is 'uninstall of both' 0 "$(status "$to/bin/fire" uninstall)"
    is 'nothing is left of both' no "$([ -e "$to" ] && echo yes || echo no)"
    HOME=$room is 'install at home' 0 "$(HOME=$room status "$here/fire" install)"
    is 'it is below .local' 0 "$(status "$room/.local/bin/fire" version)"
    HOME=$room is 'uninstall at home' 0 "$(HOME=$room status "$here/fire" uninstall)"
    is 'uninstall of /' 'fire: nothing is installed below /' "$(status "$here/fire" uninstall / >/dev/null; errors)"
    (umask 077 && "$here/fire" install "$to") >/dev/null 2>&1
    is 'with a umask: a folder for all' drwxr-xr-x "$(ls -ld "$to/share/doc/fire" | cut -c 1-10)"
    rm -rf "$to"
}

wrong_prefixes() {
    for word in install uninstall; do
        for prefix in --prefix=x -x -- "$(printf 'two\nlines')" "$(printf 'x\n.')"; do
            (cd "$room" && status "$here/fire" "$word" "${prefix%.}") >"$room/status"
            is "$word to a wrong prefix" 2 "$(cat "$room/status")"
        done
    done
    is 'wrong prefixes: nothing there' no "$([ -e "$room/--prefix=x" ] && echo yes || echo no)"
}

# What stands there and is not fire's stays as it is, and then nothing is installed.
strangers_stay() {
    for at in bin/fire lib/fire/words.txt share/doc/fire/README.md; do
        mkdir -p "$to/${at%/*}"
        case $at in
        bin/*) echo mine >"$to/$at" ;;
        lib/*) mkdir "$to/$at" ;;
        share/*) ln -s nowhere "$to/$at" ;;
        esac
        picture "$to" >"$room/before" 2>/dev/null
        is "install over $at" 1 "$(status "$here/fire" install "$to")"
        says "install over $at" "$at is there, and is not"
        is "install over $at: all as before" '' "$(picture "$to" 2>/dev/null | cmp - "$room/before" 2>&1)"
        rm -rf "$to"
    done
    status "$here/fire" install "$to" >/dev/null
    echo mine >"$to/bin/fire"
    mkdir "$to/share/man/man7"
    is 'install over a file that was changed' 1 "$(status "$here/fire" install "$to")"
    is 'uninstall of a file that was changed' 0 "$(status "$here/fire" uninstall "$to")"
    says 'uninstall of a file that was changed' "left: .*/bin/fire,"
    is 'it stays, and folders of others' 'bin/fire share/man/man7' "$(cd "$to" && echo bin/* share/*/*)"
    rm -rf "$to"
}

# A list that is not as fire writes it is not followed.
hostile_lists() {
    echo victim >"$room/victim"
    for line in "$(b2sum -l 256 <"$room/victim" | cut -c 1-64)  ../victim" "$(b2sum -l 256 <"$room/victim" | cut -c 1-64)  /victim" ../victim 'folder  bin/../..'; do
        status "$here/fire" install "$to" >/dev/null
        echo "$line" >>"$to/lib/fire/FILES"
        is "uninstall by a list with $line" 1 "$(status "$here/fire" uninstall "$to")"
        says "uninstall by a list with $line" 'lines that fire does not write'
        is "install by a list with $line" 1 "$(status "$here/fire" install "$to")"
        rm -rf "$to"
    done
    is 'the victim is there' victim "$(cat "$room/victim")"
}

# Has a tool do something else before its work, if its words have that; the path is then $odd. The others are as they were.
odd=$room/odd:$room/bin
odd_tool() {
    rm -rf "$room/odd" && mkdir "$room/odd"
    printf '#!/bin/sh\ncase $* in *%s*) %s ;; esac\nexec %s "$@"\n' "$2" "$3" "'$room/bin/$1'" >"$room/odd/$1"
    chmod 755 "$room/odd/$1"
}

# An install that fails or is interrupted before the first file comes to its place changes nothing.
nothing_at_all() {
    for way in 'mktemp new. exit' 'cp captures/tree.py exit' 'chmod captures/tree.py exit' 'mv FILES.new exit' 'cp captures/tree.py kill -TERM 0; exit'; do
        # shellcheck disable=SC2086
        set -- $way
        odd_tool "$1" "$2" "$(echo "$way" | cut -d ' ' -f 3-) 1"
        is "install over $from, $way" failed "$(PATH=$odd status $alone "$here/fire" install "$to" | sed 's/^1$\|^130$/failed/')"
        says "install over $from, $way" 'nothing was installed below'
        is "install over $from, $way: all as before" '' "$(picture "$to" | cmp - "$room/before" 2>&1)"
    done
}

# One that is killed at any time, or fails later, leaves what uninstall takes away.
taken_away_later() {
    for way in 'cp captures/tree.py kill -KILL 0' 'mv bin/fire kill -KILL 0' 'mv bin/fire exit 1'; do
        [ "$from" = nothing ] || status "$here/fire" install "$to" >/dev/null
        echo "# ${way%% *}" >>"$here/examples/README.md"
        # shellcheck disable=SC2086
        set -- $way
        odd_tool "$1" "$2" "$(echo "$way" | cut -d ' ' -f 3-)"
        (PATH=$odd status $alone "$here/fire" install "$to") >"$room/status" 2>/dev/null
        is "install over $from, $way, and uninstall" 0 "$(status "$here/fire" uninstall "$to")"
        is "install over $from, $way, and uninstall: nothing is left" '' "$(find "$to" 2>/dev/null)"
    done
}

whole_or_nothing() {
    alone=$(PATH=$whole_path command -v setsid) || { skipped 'no setsid(1)'; return; }
    for from in nothing 'an older one'; do
        [ "$from" = nothing ] || status "$here/fire" install "$to" >/dev/null
        echo '# newer' >>"$here/examples/README.md"
        picture "$to" >"$room/before"
        nothing_at_all
        taken_away_later
        rm -rf "$to"
    done
}

# What was taken out of the sources goes at the next install; what was changed since then stays.
no_longer_there() {
    touch "$here/examples/one.more" "$here/examples/two.more"
    status "$here/fire" install "$to" >/dev/null
    rm "$here/examples/one.more" "$here/examples/two.more"
    echo mine >>"$to/share/doc/fire/examples/two.more"
    is 'install without two files of before' 0 "$(status "$here/fire" install "$to")"
    is 'the one that was changed stays' two.more "$(cd "$to/share/doc/fire/examples" && echo *.more)"
    status "$here/fire" uninstall "$to" >/dev/null
    rm -rf "$to"
}

# A package of it, unpacked in a folder of its own.
packages() {
    PATH=$whole_path command -v dpkg-deb >/dev/null || { skipped 'no dpkg-deb'; return; }
    PATH=$PATH:$whole_path
    is 'deb.sh --help' 0 "$(status "$here/tools/deb.sh" --help)"
    is 'deb.sh with an unknown option' 2 "$(status "$here/tools/deb.sh" -x)"
    is 'deb.sh with two folders' 2 "$(status "$here/tools/deb.sh" "$room" "$room")"
    is 'deb.sh' 0 "$(status "$here/tools/deb.sh" "$room")"
    dpkg-deb -x "$room/fire_1.0_amd64.deb" "$room/unpacked"
    runs 'the packaged program' "$room/unpacked/usr/bin/fire"
    glibc=$(sed -n 's/.* glibc \(2[.0-9]*\) .*/\1/p' "$here/README.md")
    is 'the package needs what README says' "libc6 (>= $glibc)" "$(dpkg-deb -f "$room/fire_1.0_amd64.deb" Depends)"
    is 'no word of it that is not there' 2 "$(status "$room/unpacked/usr/bin/fire" help uninstall)"
    is 'nor is one completed' 0 "$(grep -c uninstall "$room/unpacked/usr/share/bash-completion/completions/fire")"
    gzip -d "$room"/unpacked/usr/share/man/man*/*.gz
    points_at_what_is_there "$room/unpacked/usr"
    PATH=$room/bin
}

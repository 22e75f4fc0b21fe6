# shellcheck shell=sh disable=SC2154
# The part of check.sh that has another program, other sources, another machine or fewer tools than there should be.

# A change of a file after which the program must not run, and what is said then.
stale() {
    cp -p "$here/$1" "$room/saved"
    (cd "$here" && eval "$2")
    is "$2: status" 1 "$(status "$here/fire" run "$script")"
    is "$2: said" 1 "$(grep -c -e "$3" "$room/err")"
    is "$2: what to do" 'git checkout' "$(grep -o 'git checkout' "$room/err" | head -n 1)"
    is "$2: nothing is written" 0 "$(wc -c <"$room/out")"
    is "$2: not installed" 1 "$(status "$here/fire" install "$room/nowhere")"
    is "$2: version all the same" 'fire 1.0' "$("$here/fire" version)"
    cp -p "$room/saved" "$here/$1"
}

what_ships_is_stale() {
    main=crates/fire/src/main.rt list=dist/SOURCES
    stale $main "echo '// another' >>$main" "of these sources: $main is another"
    stale $main "sed 's/\$/\r/' $main >crlf; mv crlf $main" "of these sources: $main is another"
    stale $main "rm $main" "of these sources: $main is not there"
    stale dist/fire 'printf x >>dist/fire' 'of these sources: dist/fire is another'
    stale dist/fire 'rm dist/fire' 'of these sources: dist/fire is not there'
    stale $list "rm $list" "there is no $list"
    stale $list ": >$list" "of these sources: crates.txt is not in $list"
    stale $list "head -n 1 $list >short; mv short $list" "of these sources: crates.txt is not in $list"
    stale $list "tail -n +2 $list >short; mv short $list" "of these sources: dist/fire is not in $list"
    is 'nothing was installed' no "$([ -e "$room/nowhere" ] && echo yes || echo no)"
    echo '// another' >>"$here/$main"
    "$here/fire" help >"$room/out"
    cmp -s "$room/out" "$here/crates/fire_sessions/data/help.txt"
    is 'help all the same' 0 $?
    is 'it says what is missing' 'fire: rt is not on the path' "$(status "$here/fire" run "$script" >/dev/null; tail -n 1 "$room/err")"
    is 'and makes no folder' no "$([ -e "$here/crates/fire/out" ] && echo yes || echo no)"
    cp -p "$root/$main" "$here/$main"
    is 'prove without the toolchain' 1 "$(status "$here/fire" prove)"
    is 'prove, and a word more' 2 "$(status "$here/fire" prove it)"
}

# A program that may not be run, or whose machine lacks what it needs, says so.
what_ships_does_not_run() {
    chmod -x "$here/dist/fire"
    is 'without leave to be run' 126 "$(status "$here/fire" run "$script")"
    is 'without leave to be run: note' 'fire: dist/fire may not be run: chmod +x dist/fire' "$(errors)"
    chmod +x "$here/dist/fire"
    older='glibc.cpu.hwcaps=-SSE4_2'
    if GLIBC_TUNABLES=$older "$here/dist/fire" version >/dev/null 2>&1; then
        skipped 'an older processor, since the program has no need of a newer one, or it cannot be hidden here'
    else
        is 'an older processor' 127 "$(GLIBC_TUNABLES=$older status "$here/fire" run "$script")"
        is 'an older processor: note' 1 "$(grep -c 'lacks a feature' "$room/err")"
    fi
}

# As git brings it to a machine that changes line ends.
line_ends_stay() {
    git=$(PATH=$whole_path command -v git) || { skipped 'no git'; return; }
    mkdir "$room/ends" && cp "$here/fire" "$here/.gitattributes" "$room/ends"
    cd "$room/ends" || exit 1
    "$git" init -q && "$git" add . && rm fire && "$git" -c core.autocrlf=true checkout -q fire
    cmp -s fire "$here/fire"
    is 'line ends stay' 0 $?
    cd "$root" || exit 1
}

# Of a tool that is not on the path.
without_tools() {
    mkdir "$room/few" && cp -P "$room/bin"/* "$room/few"
    for tool in sed awk b2sum xargs; do
        mv "$room/few/$tool" "$room/missing"
        is "without $tool" 1 "$(PATH=$room/few status "$here/fire" run "$script")"
        is "without $tool: note" "fire: $tool is not on the path" "$(errors)"
        mv "$room/missing" "$room/few/$tool"
    done
    rm "$room/few/sed"
    is 'help of a word without sed' 1 "$(PATH=$room/few status "$here/fire" help run)"
    is 'help of a word without sed: note' 'fire: sed is not on the path' "$(errors)"
}

# shellcheck shell=sh disable=SC2154
# Proves the program's crates and builds the program. The toolchain builds only what it has proved, and keeps that, so a build that was
# interrupted goes on where it stopped.

# The minutes of one processor that the proofs of these crates took when they were last measured.
minutes() {
    needed | awk 'NR == FNR { met[$1] = 1; next } !/^#/ && ($1 in met) { seconds += $2 } END { print int(seconds / 60 + 0.5) }' \
        - "$root/tools/gate_seconds.txt"
}

passed() {
    seconds=$(($(date +%s) - start))
    echo "$((seconds / 60)) min $((seconds % 60)) s"
}

# Copies the program's crates without their wrong bodies, which only the gate tries, to the folder $copy.
copied() {
    cp "$root/HANDLES" "$copy/" && mkdir "$copy/crates" || return 1
    needed | while read -r crate; do
        grep "^$crate:" "$root/crates.txt" >>"$copy/crates.txt"
        mkdir "$copy/crates/$crate" && (cd "$root/crates/$crate" && find . -mindepth 1 -maxdepth 1 \
            ! -name out ! -name must-fail ! -name wrong -exec cp -R {} "$copy/crates/$crate/" \;) || exit 1
    done
}

# Proves the crates in that copy, each as soon as those that it stands on are, and builds the program. The toolchain says of each crate
# that it is proved, and keeps that, so that neither a later call nor the gate proves it again.
proved() {
    (cd "$copy" && rt ci; echo $? >"$log.status") </dev/null 2>&1 |
        tee "$log" | while read -r mark crate rest; do
            case "$mark $rest" in
            "rt: proved" | "rt: is kept:"*) ;;
            *) continue ;;
            esac
            number=$((number + 1))
            note "$number of $total, $crate, after $(passed)"
        done
    [ "$(cat "$log.status")" = 0 ]
}

announce() {
    note "the program is proved and built here now; this is done once, and what was proved before is kept"
    note "$total crates, which took $(minutes) minutes of one processor when they were measured (tools/gate_seconds.txt);" \
        "as many at a time as there are processors ($(nproc) here), and memory for them"
    note "this takes up to 4 GB of memory for each processor, and 2 GB in ${TMPDIR:-/tmp} until it is done"
}

# The list of sources is of those that are copied, so that a source which changes while they are proved makes the program stale.
build() {
    start=$(date +%s)
    number=0
    total=$(needed | wc -l)
    announce
    list=$(source_files | (cd "$root" && xargs b2sum -l 256)) && copied && proved || return 1
    mv "$copy/crates/fire/out/fire" "$built/fire" || return 1
    { (cd "$root" && b2sum -l 256 crates/fire/out/fire) && echo "$list"; } >"$built/SOURCES" || return 1
    note "built in $(passed)"
}

cleared() {
    rm -rf "$log" "$log.status" "$copy"
}

build_or_end() {
    log=$(mktemp) && copy=$(mktemp -d) || exit 1
    trap 'cleared; exit 130' INT TERM
    if ! build; then
        cat "$log" >&2
        cleared
        note "the program was not built"
        exit 1
    fi
    cleared
    trap - INT TERM
}

# Waits while another call builds: those of a pipe begin together, and one of them builds.
wait_for_others() {
    must_have rt
    mkdir -p "$built" || exit 1
    exec 9>"$built/lock"
    command -v flock >/dev/null || return 0
    flock -n 9 && return 0
    note "another call builds the program; this one waits for it"
    flock 9
}

build_once() {
    wait_for_others
    is_fresh crates/fire/out/fire || build_or_end
    exec 9>&-
}

# Says whether what came out is what ships. Its end is that of the call.
prove_in_any_case() {
    wait_for_others
    build_or_end
    if cmp -s "$built/fire" "$root/dist/fire"; then
        note "it is the shipped program, byte for byte"
    elif is_fresh dist/fire; then
        note "it is NOT the shipped program, though that was built of the same sources, with $(sed -n 1p "$root/dist/KIT");" \
            "here is $(rt version)"
        exit 1
    else
        note "the sources are not those of the shipped program; tools/dist.sh makes dist/ anew"
    fi
    exit 0
}

#!/bin/sh
# Makes dist/ of the program that the gate has just built here:
#
#     rt ci && tools/dist.sh
#
# With --check it says whether what ships is of these sources, and is that program. If the toolchain is another one, or is not there,
# the shipped program is held against the sessions instead. The status is 0 if all holds, and 1 if something does not.
self=$0
root=$(CDPATH='' cd -- "$(dirname -- "$self")/.." && pwd) || exit 1
dist=$root/dist
. "$root/tools/launcher/call.sh"
. "$root/tools/launcher/fresh.sh"

refuse() {
    echo "dist: $*" >&2
    exit 1
}

# (the gate's own check, below, compares the bytes; this is only for who forgot to run it)
must_be_built() {
    [ -x "$built/fire" ] || refuse "there is no $built/fire: run rt ci first"
    newer=$(cd "$root" && source_files | while read -r file; do find "$file" -newer "$built/fire"; done | head -n 1)
    [ -z "$newer" ] || refuse "$newer is newer than $built/fire: run rt ci first"
}

write_readme() {
    cat >"$dist/README.md" <<TXT
# The program as the gate built it

\`fire\` is the program for x86-64 Linux. It needs glibc $(glibc_of "$dist/fire") or later (Debian 12, Ubuntu
22.04), a processor of level x86-64-v2 (Intel since Nehalem, 2008; AMD since Bulldozer, 2011), and
nothing else. On an older processor it ends at once with status 127 and a line that says so; with an
older glibc the system says which version it lacks. The gate builds for no other level. Where the
toolchain is, \`rt run --cpu x86-64 -- version\` in \`crates/fire\` proves the libraries and builds
\`out/fire\` for any x86-64; it is not what ships.

\`SOURCES\` has a BLAKE2b checksum of the program, and of every source file that it was built of;
\`KIT\` names the toolchain that proved these sources and built it. \`./fire\` makes that list anew at
each call, and runs the program only if it is the same; else it says which file is another.
\`./fire prove\` proves and builds the program here, in over an hour, and compares what comes out
with it, byte for byte; so does \`./.ci/run\`, which refuses a change whose \`dist/\` is stale.

\`rt ci && tools/dist.sh\` makes all of this anew, as the last step of each change of the code.
TXT
}

make() {
    must_be_built
    mkdir -p "$dist" && cp "$built/fire" "$dist/fire.new" && chmod 755 "$dist/fire.new" && mv "$dist/fire.new" "$dist/fire" &&
        checksums dist/fire >"$dist/SOURCES" && rt version >"$dist/KIT" && write_readme || refuse "dist/ was not made"
    echo "dist: made of $(($(wc -l <"$dist/SOURCES") - 1)) files of sources"
}

must_be_of_these_sources() {
    is_fresh dist/fire && return
    say_what_is_amiss
    refuse "dist/ is stale: run rt ci && tools/dist.sh"
}

must_be_what_was_built() {
    cmp "$built/fire" "$dist/fire" >&2 || refuse "the shipped program is not the one that was built here of the same sources"
    echo "dist: the shipped program is the one that the gate built here, byte for byte"
}

must_pass_sessions() {
    echo "dist: the toolchain here is $1; the shipped program was built by $(cat "$dist/KIT"), and is held against the sessions"
    if ! command -v python3 >/dev/null; then
        echo "dist: skipped, since there is no python3"
        return
    fi
    python3 "$root/tools/sessions.py" "$dist/fire" || refuse "the shipped program does not meet the sessions"
}

check() {
    must_be_of_these_sources
    kit=$(command -v rt >/dev/null && rt version) || kit='not there'
    if [ "$kit" = "$(cat "$dist/KIT")" ] && [ -x "$built/fire" ]; then
        must_be_what_was_built
    else
        must_pass_sessions "$kit"
    fi
}

case $#:${1-} in
0:) make ;;
1:--check) check ;;
*) refuse "usage: tools/dist.sh [--check]" ;;
esac

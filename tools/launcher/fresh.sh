# shellcheck shell=sh disable=SC2154
# Whether a program is of the sources as they are. Beside what is built lies SOURCES, a list of checksums, of the program itself, of
# crates.txt and of every source file of the crates that it stands on; times of files say nothing. $root is the top of the repository.
built=$root/crates/fire/out

# The crates that the program stands on, and its own: not those of tests.
needed() {
    awk '!/^#/ && NF { name = $1; sub(/:$/, "", name); uses[name] = $0 }
        function reach(name, words, count, i) {
            if (!(name in uses) || (name in met)) return
            met[name] = 1
            count = split(uses[name], words)
            for (i = 2; i <= count; i++) reach(words[i])
        }
        END { reach("fire"); for (name in met) print name }' "$root/crates.txt" | LC_ALL=C sort
}

# What the program is built of. (The names of crates are plain words.)
source_files() {
    echo crates.txt
    # shellcheck disable=SC2046
    (cd "$root" && find $(needed | sed 's,.*,crates/&/src,') -type f | LC_ALL=C sort)
}

# The list for that program, whose place is given from the top of the repository.
checksums() {
    (cd "$root" && { echo "$1" && source_files; } | xargs b2sum -l 256)
}

# Whether the list beside that program is whole, and all is as it says.
is_fresh() {
    [ -f "$root/${1%/*}/SOURCES" ] && checksums "$1" 2>/dev/null | cmp -s - "$root/${1%/*}/SOURCES"
}

# Ends if the shipped program has lost its leave to be run, as copies without modes do.
must_be_runnable() {
    [ -x "$program" ] && return
    note "dist/fire may not be run: chmod +x dist/fire"
    exit 126
}

# The version of the C library that a program needs.
glibc_of() {
    LC_ALL=C grep -ao 'GLIBC_2[.0-9]*' "$1" | sed 's/GLIBC_//' | sort -t . -k 2 -n | tail -n 1
}

# What is not as dist/SOURCES says: a file a line, and how.
amiss() {
    checksums dist/fire 2>/dev/null | awk '
        shipped { sums[$2] = $1; next }
        !($2 in sums) { print $2 " is not in dist/SOURCES" }
        $2 in sums && sums[$2] != $1 { print $2 " is another" }
        { delete sums[$2] }
        END { for (name in sums) print name " is not there" }' shipped=1 "$root/dist/SOURCES" shipped= - | LC_ALL=C sort
}

# Says why what ships is not run, and what to do.
say_what_is_amiss() {
    for tool in awk find sed sort xargs b2sum cmp; do
        must_have "$tool"
    done
    if [ -f "$root/dist/SOURCES" ]; then
        amiss | head -n 3 | while read -r file; do note "the shipped program is not of these sources: $file"; done
    else
        note "there is no dist/SOURCES, which says what the shipped program is of"
    fi
    note "git checkout gives back what shipped, as git checkout dist crates crates.txt; ./fire prove proves and builds what is here"
}

# What the program says of itself can be told without it. The status for a failed output is the program's.
say_of_itself() {
    case $#:${1-} in
    0:) show "$root/crates/fire_sessions/data/help.txt" >&2 && exit 2 ;;
    1:help | 1:--help | 1:-h) show "$root/crates/fire_sessions/data/help.txt" && exit 0 ;;
    1:version | 1:--version | 1:-V) show "$root/crates/fire_sessions/data/version.txt" && exit 0 ;;
    *) return ;;
    esac
    write_fault
}

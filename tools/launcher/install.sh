# shellcheck shell=sh disable=SC2154
# Installs what ships for one user, or below any other folder: all of it or nothing, and over nothing that is not its own. $root is the top
# of the repository; tools/launcher/uninstall.sh says how it is known what is there.

# What is installed under another name than it has here: where from, and where to.
renamed() {
    cat <<'LIST'
dist/fire lib/fire/fire
tools/launcher/call.sh lib/fire/call.sh
tools/launcher/words.txt lib/fire/words.txt
tools/launcher/uninstall.sh lib/fire/uninstall.sh
tools/launcher/installed.sh bin/fire
docs/man/fire.1 share/man/man1/fire.1
docs/man/fire-log.5 share/man/man5/fire-log.5
docs/man/fire-script.5 share/man/man5/fire-script.5
tools/completion.bash share/bash-completion/completions/fire
LIST
    # Below ~/.local this is Wireshark's personal folder of plugins: only if it was asked for, by $plugin.
    [ -z "$plugin" ] || (cd "$root/$plugin" && for file in fire1394.lua fire1394/*.lua; do echo "$plugin/$file lib/wireshark/plugins/fire1394/$file"; done)
}

# What is read, and the tools for captures: these lie below share/doc/fire as in the repository, so that one page finds another. What is
# of use in the repository alone stays there.
documents() {
    cd "$root" || return
    for file in LICENSE NOTICE README.md CHANGELOG.md CONTRIBUTING.md SECURITY.md docs/*.md docs/*.png examples/* \
        tools/from_*.py tools/to_*.py tools/log_of_json.py tools/captures/*.py tools/captures/vectors/nosy_leak.log \
        tools/captures/vectors/trace_perf.log tools/wireshark/fire1394.lua tools/wireshark/fire1394/*.lua tools/wireshark/colours; do
        case $file in
        docs/ARCHITECTURE.md | docs/DECISIONS.md | docs/GATE.md | docs/TOUR.md | tools/captures/check.py | tools/captures/make_vectors.py) ;;
        *) echo "$file" ;;
        esac
    done
}

# The names of all that is installed, which have no blanks.
installed() {
    renamed | cut -d ' ' -f 2
    (documents) | sed 's,^,share/doc/fire/,'
}

# Copies it below a folder. The help of words comes without those that $without names.
put_all() {
    renamed | while read -r from at; do
        mkdir -p "$1/${at%/*}" || exit 1
        case $from in
        */words.txt) awk -v without=" $without " '/^== / { left = index(without, " " $2 " ") } !left' "$root/$from" >"$1/$at" ;;
        *) cp "$root/$from" "$1/$at" ;;
        esac || exit 1
    done || return
    # shellcheck disable=SC2046
    for folder in '' $(documents | sed -n 's,[^/]*$,,p' | LC_ALL=C sort -u); do
        mkdir -p "$1/share/doc/fire/$folder" &&
            (cd "$root" && cp $(documents | grep -x "${folder}[^/]*") "$1/share/doc/fire/$folder") || return
    done
    find "$1" -type f -exec chmod 644 {} + && chmod 755 "$1/bin/fire" "$1/lib/fire/fire" "$1"/share/doc/fire/tools/*.py
}

# The folders that files of these names, from standard input, lie in; `.` is the folder below which all is.
folders() {
    awk -F/ '{ name = "."; print name; for (i = 1; i < NF; i++) { name = i == 1 ? $1 : name "/" $i; print name } }' | LC_ALL=C sort -u
}

# Ends if something stands at a name that is to be installed, and fire did not put it there.
must_be_free() {
    taken=$(echo "$names" | strangers)
    [ -n "$taken" ] || return
    for at in $taken; do note "$to/$at is there, and is not what fire put there"; done
    note "so nothing was installed below ${to:-/}"
    exit 1
}

# Puts a list, from standard input, in the place of that which is there: at no time is one there that is cut.
put_list() {
    LC_ALL=C sort -u | sed '/^$/d' >"$list.new" && mv -f "$list.new" "$list"
}

# Has all that is to come in a folder beside, from which it is moved; and the list has the folders that are made.
prepared() {
    mkdir -p "$to/lib/fire" && printf '%s\n' "$before" "$made" | put_list && stage=$(mktemp -d "$to/lib/fire/new.XXXXXX") || return 1
    put_all "$stage" || return 1
    sums=$(cd "$stage" && echo "$names" | xargs b2sum -l 256) || return 1
    echo "$names" | folders | while read -r folder; do mkdir -p "$to/$folder" && [ -w "$to/$folder" ] || exit 1; done || return 1
    printf '%s\n' "$before" "$made" "$sums" | put_list
}

# Puts back what was there before, as long as nothing has been moved.
undone() {
    if [ -n "$before" ]; then echo "$before" | put_list; else rm -f "$list"; fi
    rm -rf "$stage" "$list.new"
    echo "$made" | sed 's/^folder  //' | LC_ALL=C sort -r | remove_empty
    note "nothing was installed below ${to:-/}"
    exit "$1"
}

# Moves all to its place, and removes what was installed before and is no more. Only renames are left, and they are not interrupted.
moved() {
    trap '' INT TERM HUP
    for folder in $(echo "$names" | sed 's,/[^/]*$,,' | LC_ALL=C sort -u); do
        # shellcheck disable=SC2046
        (cd "$stage" && mv -f $(echo "$names" | grep -x "${folder}/[^/]*") "$to/$folder/") || return 1
    done
    files_of "$list" | grep -vxF -e "$names" | own | remove || return 1
    rm -rf "$stage"
    printf '%s\n' "$before" "$made" | grep '^folder' | { cat && echo "$sums"; } | put_list
}

install() {
    set_folder "$1" install
    if ! is_fresh dist/fire; then
        say_what_is_amiss
        note "so nothing is installed"
        exit 1
    fi
    [ ! -f "$list" ] || must_be_a_list
    umask 022
    without='prove install' stage=''
    names=$(installed)
    must_be_free
    before=$(cat "$list" 2>/dev/null)
    made=$(echo "$names" | folders | while read -r folder; do [ -d "$to/$folder" ] || echo "folder  $folder"; done)
    trap 'undone 130' INT TERM HUP
    prepared || undone 1
    moved || { note "it was not wholly installed below ${to:-/}; fire uninstall takes away what there is of it"; exit 1; }
    note "installed below ${to:-/}; fire uninstall takes it away"
    case :$PATH: in
    *":$to/bin:"*) ;;
    *) note "$to/bin is not on the path" ;;
    esac
    exit 0
}

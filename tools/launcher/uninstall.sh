# shellcheck shell=sh disable=SC2154
# What is installed below a folder, and how it is taken away. lib/fire/FILES lists it: a checksum and a name for each file, `folder` and a
# name for each folder that was not there before. What is not as one of these lines says is somebody else's, and stays as it is.
line_feed='
'

# Sets $to to the folder, as a full path without a slash at its end, and $list to the list of what is installed there.
set_folder() {
    case $1 in -* | *"$line_feed"*) usage "$2 [PREFIX]" ;; esac
    to=${1:-${HOME:?is not set, so name a folder}/.local}
    case $to in
    /*) ;;
    *) to=$PWD/$to ;;
    esac
    while [ "$to" != "${to%/}" ]; do to=${to%/}; done
    list=$to/lib/fire/FILES
}

# Ends if the list has a line that fire does not write, as one that leads out of the folder.
must_be_a_list() {
    if grep -vxE '([0-9a-f]{64}|folder)  [A-Za-z0-9_.][A-Za-z0-9_./-]*' "$list" || grep -E '(/|  )\.\.(/|$)' "$list"; then
        note "$list has lines that fire does not write, so nothing is done (if another version wrote it, let that one uninstall first)"
        exit 1
    fi >/dev/null
}

# The files of a list, and its folders, those within others first. (No name has blanks.)
files_of() {
    sed -n 's/^[0-9a-f]\{64\}  //p' "$1" | LC_ALL=C sort -u
}

folders_of() {
    sed -n 's/^folder  //p' "$1" | LC_ALL=C sort -ur
}

# Of the names on standard input those at which a file stands that is as a line of the list says.
own() {
    while read -r at; do
        [ -L "$to/$at" ] || [ ! -f "$to/$at" ] || echo "$at"
    done | (cd "$to" && xargs -r b2sum -l 256) 2>/dev/null | grep -xF -f "$list" 2>/dev/null | sed 's/^[0-9a-f]*  //'
}

# Of the names on standard input those at which anything else stands.
strangers() {
    there=$(while read -r at; do [ ! -e "$to/$at" ] && [ ! -L "$to/$at" ] || echo "$at"; done)
    echo "$there" | grep -vxF -e "$(echo "$there" | own)"
}

# Removes the files of these names, from standard input.
remove() {
    (cd "$to" && xargs rm -f)
}

# Removes those folders, from standard input, that are empty. (`.` is the folder itself.)
remove_empty() {
    while read -r folder; do
        rmdir "$to/${folder#.}" 2>/dev/null
    done
    return 0
}

uninstall() {
    set_folder "$1" uninstall
    if [ ! -f "$list" ]; then
        note "nothing is installed below ${to:-/}"
        exit 1
    fi
    must_be_a_list
    left=$(files_of "$list" | strangers)
    folders=$(folders_of "$list")
    if ! files_of "$list" | own | remove || ! rm -rf "$to"/lib/fire/new.?????? "$list"; then
        note "it was not taken away below ${to:-/}"
        exit 1
    fi
    echo "$folders" | remove_empty
    for at in $left; do note "left: $to/$at, which is not what fire put there"; done
    note "taken away below ${to:-/}"
    exit 0
}

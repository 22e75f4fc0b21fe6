#!/bin/sh
# Starts the installed program, which lies beside this in lib/fire. (A package leaves it to the system to take it away.)
self=$0
[ ! -L "$self" ] || self=$(readlink -f -- "$self") || exit 1
case $self in
*/*) folder=${self%/*} ;;
*) folder=. ;;
esac
lib=$folder/../lib/fire
program=$lib/fire words=$lib/words.txt
. "$lib/call.sh"
help_of "$@"
if [ "${1-}" = uninstall ] && [ -f "$lib/uninstall.sh" ]; then
    [ $# -le 2 ] || usage "uninstall [PREFIX]"
    . "$lib/uninstall.sh"
    uninstall "${2:-$(CDPATH='' cd -- "$folder/.." && pwd)}"
fi
call "$@"

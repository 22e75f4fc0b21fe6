# Completes the words of fire, and what follows them, in bash. tools/README.md says how it is installed.
_fire() {
    # After < and > files are completed, as wherever no word fits.
    case ${COMP_WORDS[COMP_CWORD - 1]-} in '<' | '>' | '>>') COMPREPLY=() && return ;; esac
    local all='run trace dub check explore explain decode json page dv audit holders watch map convert gen version' words=
    case $COMP_CWORD:${COMP_WORDS[1]-} in
    1:*) words="$all help --help --version -h -V" ;;
    2:map) words='dot --help' ;;
    2:convert) words='1 2 --help' ;;
    2:help) words="$all help" ;;
    2:-*) ;;
    2:*) words='--help' ;;
    *:explore) words='then contend' ;;
    esac
    # The launcher's own, at the top of the repository, and of what is installed.
    case $COMP_CWORD:$1 in
    1:./fire) words+=' prove install uninstall' ;;
    1:*) words+=' uninstall' ;;
    esac
    mapfile -t COMPREPLY < <(compgen -W "$words" -- "${COMP_WORDS[COMP_CWORD]-}")
    # (no file's name may follow these)
    case ${COMP_WORDS[1]-} in explore | gen | help | version) compopt +o default 2>/dev/null ;; esac
}
complete -o default -F _fire fire ./fire

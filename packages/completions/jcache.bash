# Completion of jcache's words for bash.

_jcache() {
    local word=${COMP_WORDS[COMP_CWORD]} before=${COMP_WORDS[COMP_CWORD - 1]} options
    # Where an option is joined to its value, bash cuts the words at the sign.
    if [ "$word" = "=" ]; then
        before=$before= word=
    elif [ "$before" = "=" ]; then
        before=${COMP_WORDS[COMP_CWORD - 2]}=
    fi
    case $before in
        --format | --format=) mapfile -t COMPREPLY < <(compgen -W "text json" -- "$word"); return ;;
        --workers | --workers=) mapfile -t COMPREPLY < <(compgen -W "1 2 3 4 5 6 7 8" -- "$word"); return ;;
        --explain=) mapfile -t COMPREPLY < <(compgen -W "always never auto" -- "$word"); return ;;
        --seed | --seed= | --capacity | --capacity=) return ;;
    esac
    if [ "$COMP_CWORD" -eq 1 ]; then
        mapfile -t COMPREPLY < <(compgen -W "run check replay help --help --version" -- "$word")
        return
    fi
    case ${COMP_WORDS[1]} in
        run) options="--workers --seed --serial --format --strict --explain --help --version" ;;
        check) options="--strict --all --explain --help --version" ;;
        replay) options="--capacity --format --explain --help --version" ;;
        help) mapfile -t COMPREPLY < <(compgen -W "run check replay help" -- "$word"); return ;;
        *) return ;;
    esac
    case $word in
        -*) mapfile -t COMPREPLY < <(compgen -W "$options" -- "$word") ;;
        *) mapfile -t COMPREPLY < <(compgen -f -- "$word"); compopt -o filenames 2> /dev/null ;;
    esac
}

complete -F _jcache jcache

# Completion of moo for bash.

_moo()
{
    local word=${COMP_WORDS[COMP_CWORD]} command=${COMP_WORDS[1]}
    COMPREPLY=()
    if [ "$COMP_CWORD" -eq 1 ]; then
        mapfile -t COMPREPLY < <(compgen -W "init apply rehearse ask dump load check serve help --help --version" -- "$word")
        return
    fi
    case $command in
        init | apply | rehearse | ask | dump | load | check | serve) ;;
        help)
            if [ "$COMP_CWORD" -eq 2 ]; then
                mapfile -t COMPREPLY < <(compgen -W "init apply rehearse ask dump load check serve" -- "$word")
            fi
            return
            ;;
        *) return ;;
    esac
    case $word in
        --*)
            # The flags that help of the command lists.
            mapfile -t COMPREPLY < <(compgen -W "$("${COMP_WORDS[0]}" "$command" --help 2>/dev/null | sed -n 's/^ .*\(--[a-z]*\)  *[A-Z].*/\1/p')" -- "$word")
            return
            ;;
    esac
    # A flag counts as no word.
    local place=$COMP_CWORD before
    for before in "${COMP_WORDS[@]:2:COMP_CWORD-2}"; do
        [[ $before = --* ]] && place=$((place - 1))
    done
    case $command:$place in
        *:2 | apply:3 | rehearse:3 | ask:3 | load:3) mapfile -t COMPREPLY < <(compgen -f -- "$word") ;;
    esac
}
complete -o filenames -F _moo moo

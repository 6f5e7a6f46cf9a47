# Completion of moo-shell for bash.

_moo_shell()
{
    local word=${COMP_WORDS[COMP_CWORD]} before=${COMP_WORDS[COMP_CWORD - 1]}
    COMPREPLY=()
    case $before in
        -f | --file | --names | --moo | --token)
            mapfile -t COMPREPLY < <(compgen -f -- "$word")
            return
            ;;
        -p | --port | --web | --as | -c | --call | --from-line) return ;;
    esac
    case $word in
        -*) mapfile -t COMPREPLY < <(compgen -W "--port -p --web --token --as --file -f --call -c --single --single-transaction -1 --from-line --dry-run --quiet -q --names --moo --version --help" -- "$word") ;;
        *) mapfile -t COMPREPLY < <(compgen -f -- "$word") ;;
    esac
}
complete -o filenames -F _moo_shell moo-shell

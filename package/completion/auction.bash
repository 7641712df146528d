# Completion of `auction` for bash: commands, options and file names. Installed as bash-completion/completions/auction.
_auction() {
    local word=${COMP_WORDS[COMP_CWORD]} before=${COMP_WORDS[COMP_CWORD - 1]} command=${COMP_WORDS[1]} options=
    COMPREPLY=()
    # An option, its = and its value are three words of bash's.
    [[ $word != = ]] || word=
    [[ $before != = ]] || before=${COMP_WORDS[COMP_CWORD - 2]}
    if ((COMP_CWORD == 1)); then
        mapfile -t COMPREPLY < <(compgen -W "solve check hall mail help --help --version" -- "$word")
        return
    fi
    case $command in
    help)
        ((COMP_CWORD > 2)) || mapfile -t COMPREPLY < <(compgen -W "solve check hall mail" -- "$word")
        return
        ;;
    # Nothing stands after these.
    --help | -h | --version | -V) return ;;
    esac
    case $before in
    # A number stands here, and nobody but the user knows which.
    --workers | --bids | --audit | --objects | --seconds) return ;;
    --from) ;;
    *)
        case $command in
        solve) options="--workers --bids --audit --objects --from --direct --seconds --progress --large --help" ;;
        check | hall) options="--objects --large --help" ;;
        mail) options="--help" ;;
        esac
        ;;
    esac
    if [[ $word == -* && -n $options ]]; then
        mapfile -t COMPREPLY < <(compgen -W "$options" -- "$word")
    else
        compopt -o filenames 2>/dev/null
        mapfile -t COMPREPLY < <(compgen -f -- "$word")
    fi
}
complete -F _auction auction

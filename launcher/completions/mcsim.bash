# Completions of mcsim for bash.
_mcsim() {
    local word=${COMP_WORDS[COMP_CWORD]} before=${COMP_WORDS[COMP_CWORD - 1]}
    # --show=reports is three words to bash
    if [[ $word == = ]]; then
        word=
    elif [[ $before == = ]]; then
        before=${COMP_WORDS[COMP_CWORD - 2]}
    fi
    case $before in
        --show | -s)
            mapfile -t COMPREPLY < <(compgen -W 'schedule reports both' -- "$word")
            return
            ;;
        --horizon | -n | --workers | -w | --tick-us)
            COMPREPLY=()
            return
            ;;
        --install | --uninstall)
            compopt -o filenames
            mapfile -t COMPREPLY < <(compgen -d -- "$word")
            return
            ;;
    esac
    if [[ $word == -* ]]; then
        mapfile -t COMPREPLY < <(compgen -W '--horizon --workers --tick-us --show --help --version --install --uninstall --prove' -- "$word")
    else
        compopt -o filenames
        mapfile -t COMPREPLY < <(compgen -f -X '!*.toml' -- "$word"; compgen -d -- "$word")
    fi
}
complete -F _mcsim mcsim

# Completions of mcscheck for bash.
_mcscheck() {
    local word=${COMP_WORDS[COMP_CWORD]} before=${COMP_WORDS[COMP_CWORD - 1]}
    # --horizon=5 is three words to bash
    if [[ $word == = ]]; then
        word=
    elif [[ $before == = ]]; then
        before=${COMP_WORDS[COMP_CWORD - 2]}
    fi
    case $before in
        --show | -s)
            mapfile -t COMPREPLY < <(compgen -W 'findings jobs table both' -- "$word")
            return
            ;;
        --format)
            mapfile -t COMPREPLY < <(compgen -W 'text csv json pretty' -- "$word")
            return
            ;;
        --color)
            mapfile -t COMPREPLY < <(compgen -W 'auto always never' -- "$word")
            return
            ;;
        --horizon | -n | --workers | -w | --tick-us | --allow-lost | --why)
            COMPREPLY=()
            return
            ;;
        --install | --uninstall)
            compopt -o filenames
            mapfile -t COMPREPLY < <(compgen -d -- "$word")
            return
            ;;
    esac
    if [[ $word == -* ]]; then
        mapfile -t COMPREPLY < <(compgen -W '--horizon --workers --tick-us --allow-lost --strict --show --format --color --rows --why --forever --help --version --install --uninstall --prove' -- "$word")
    else
        compopt -o filenames
        mapfile -t COMPREPLY < <(compgen -f -X '!*.toml' -- "$word"; compgen -d -- "$word")
    fi
}
complete -F _mcscheck mcscheck

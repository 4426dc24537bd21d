# Completions of the tools of mcsim for bash; checks/pages/tool_pages.py makes them.
_mcsim_tools() {
    local word=${COMP_WORDS[COMP_CWORD]} before=${COMP_WORDS[COMP_CWORD - 1]} tool=${COMP_WORDS[0]##*/} words= values=
    case $tool in
        mcsim-compare) words='--help --version --horizon --time --core --thread --event --events --name --idle --unit --offset --tolerance --percent --program --take' ;;
        mcsim-explain) words='--help --version --program' ;;
        mcsim-live) words='--help --version --horizon --program --from --to --tick-us --budgets --threads --cores --lanes --most --width --theme --port --limit' ;;
        mcsim-microkit) words='--help --version --work --partial --tick-us --output' ;;
        mcsim-pretty) words='--help --version --color --tick-us --rows --run' ;;
        mcsim-sweep) words='--help --version --set --least --greatest --of --horizon --jobs --emit --run --again --collect --program --checker --output' ;;
        mcsim-tasks) words='--help --version --priorities --clocks --random --utilisation --seed --periods --list --analyse --handlers --format --horizon --program --output' ;;
        mcsim-trace) words='--help --version --horizon --program --rows --tick-ns --budgets --output' ;;
        mcsim-view) words='--help --version --horizon --program --rows --from --to --tick-us --budgets --threads --cores --lanes --most --width --theme --trace --time --core --thread --event --events --name --idle --unit --offset --tolerance --output' ;;
        mcsim-waves) words='--help --version --horizon --program --rows --tick-ns --output --save' ;;
        mcsim-worst) words='--help --version --of --vary --ranges --phases --times --horizon --runs --all --seed --jobs --program --checker --output' ;;
    esac
    case $tool:$before in
        mcsim-live:--theme) values='auto light dark' ;;
        mcsim-pretty:--color) values='auto always never' ;;
        mcsim-tasks:--priorities) values='given rate deadline' ;;
        mcsim-tasks:--format) values='csv text json' ;;
        mcsim-view:--theme) values='auto light dark' ;;
    esac
    if [[ -n $values ]]; then
        mapfile -t COMPREPLY < <(compgen -W "$values" -- "$word")
    elif [[ $word == -* ]]; then
        mapfile -t COMPREPLY < <(compgen -W "$words" -- "$word")
    else
        compopt -o filenames
        mapfile -t COMPREPLY < <(compgen -f -- "$word")
    fi
}
complete -F _mcsim_tools mcsim-compare mcsim-explain mcsim-live mcsim-microkit mcsim-pretty mcsim-sweep mcsim-tasks mcsim-trace mcsim-view mcsim-waves mcsim-worst

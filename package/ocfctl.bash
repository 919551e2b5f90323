# Completions of ocfctl for bash: its verbs, its options, and the names of the resources.
_ocfctl() {
    local word=${COMP_WORDS[COMP_CWORD]} verb=${COMP_WORDS[1]} words="--help --json --no-wait --socket --timeout"
    if ((COMP_CWORD == 1)); then
        words="status start stop restart monitor promote demote unmanage manage forget maintenance reload events json ids --help"
        mapfile -t COMPREPLY < <(compgen -W "$words" -- "$word")
        return
    fi
    case $verb in
    monitor) words+=" --level" ;;
    events) words="--help --json --socket --timeout --follow --since" ;;
    status | ids) words="--help --json --socket --timeout" ;;
    reload) words+=" --offline" ;;
    esac
    if [ "${COMP_WORDS[COMP_CWORD - 1]}" = --socket ]; then
        compopt -o filenames 2> /dev/null
        mapfile -t COMPREPLY < <(compgen -f -- "$word")
        return
    fi
    case $word:$verb in
    -*) ;;
    *:maintenance) words="on off" ;;
    *:reload | *:json | *:ids) words="" ;;
    *) words=$(command ocfctl ids 2> /dev/null) ;;
    esac
    mapfile -t COMPREPLY < <(compgen -W "$words" -- "$word")
}
complete -F _ocfctl ocfctl

# Completions of bash for ftpd and sheets.

# _ftpd_words COMMANDS SERVE JSON TOP USAGE: the commands of the program, and the options of `serve`, of `plan` and `check-config`, of `top`, and of
# `usage`
_ftpd_words() {
    local word=${COMP_WORDS[COMP_CWORD]} before=${COMP_WORDS[COMP_CWORD - 1]} options='-h --help'
    COMPREPLY=()
    # (bash splits an option and its value at the equals sign)
    [[ $word == = ]] && word=''
    [[ $before == = ]] && before=${COMP_WORDS[COMP_CWORD - 2]}
    if [[ $COMP_CWORD -eq 1 ]]; then
        mapfile -t COMPREPLY < <(compgen -W "$1 -h --help -V --version" -- "$word")
        return
    fi
    [[ ${COMP_WORDS[1]} == serve ]] && options="$2 $options"
    [[ ${COMP_WORDS[1]} == share ]] && options="--svg --by $options"
    [[ ${COMP_WORDS[1]} == check ]] && options="--by $options"
    [[ ${COMP_WORDS[1]} == top ]] && options="$4 $options"
    [[ ${COMP_WORDS[1]} == usage ]] && options="$5 $options"
    [[ ${COMP_WORDS[1]} == plan || ${COMP_WORDS[1]} == check-config ]] && options="$3 $options"
    [[ ${COMP_WORDS[1]} == plan || ${COMP_WORDS[1]} == check-config ]] && options="--share-by $options"
    [[ ${COMP_WORDS[1]} == check-config ]] && options="--against --against-running $options"
    if [[ ${COMP_WORDS[1]} == help ]]; then
        [[ $COMP_CWORD -gt 2 ]] || mapfile -t COMPREPLY < <(compgen -W "$1" -- "$word")
    elif [[ $before == --*-timeout || $before == --*-delay || $before == --*-seconds || $before == --*-sessions || $before == --status-port || $before == --rows || $before == --first || $before == --day ]]; then
        return # a number, or a day
    elif [[ $before == --by && ${COMP_WORDS[1]} != usage ]]; then
        return # a depth
    elif [[ $before == --share-by ]]; then
        mapfile -t COMPREPLY < <(compgen -W 'sessions users' -- "$word")
    elif [[ $before == --by ]]; then
        mapfile -t COMPREPLY < <(compgen -W 'user file hour address' -- "$word")
    elif [[ $before == --log-form ]]; then
        mapfile -t COMPREPLY < <(compgen -W 'plain journal' -- "$word")
    elif [[ $word == -* && $before != --*-file && $before != --transfer-log && $before != --status && $before != --against ]]; then
        mapfile -t COMPREPLY < <(compgen -W "$options" -- "$word")
    else
        mapfile -t COMPREPLY < <(compgen -f -- "$word")
    fi
}

_ftpd() {
    _ftpd_words 'share check check-config migrate script serve plan top usage help' '--stop-file --ready-file --drain-file --reload-file --running-file --transfer-log --log-form --status --status-port --login-timeout --idle-timeout --login-delay --drain-seconds --end-file --user-sessions --sync --share-by' '--json' '--once --rows' '--day --by --first --json --csv'
}

_sheets() {
    _ftpd_words 'share check help' '' '' '' ''
}

complete -o filenames -F _ftpd ftpd
complete -o filenames -F _sheets sheets

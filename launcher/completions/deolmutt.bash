# Completions for bash of deolmutt, made by launcher/make-pages from launcher/words.txt.

_deolmutt() {
    local word=${COMP_WORDS[COMP_CWORD]} before=${COMP_WORDS[COMP_CWORD - 1]} command=${COMP_WORDS[1]-} choices=''
    COMPREPLY=()
    if ((COMP_CWORD == 1)); then
        choices='make deliver list read seen flag move copy expunge clean check play threads index log judge help -h --help -V --version'
    elif [[ $before == [\<\>]* ]]; then
        compopt -o default 2>/dev/null
    elif [[ $word == -* ]]; then
        case $command in
            deliver) choices='--folder --from --no-sync --many --print -h --help' ;;
            list) choices='--json --headers -h --help' ;;
            flag) choices='--add --remove -h --help' ;;
            log) choices='--states -h --help' ;;
            judge) choices='--lines --json --summary --allow --least --owed --relies --by -h --help' ;;
            *) choices='-h --help' ;;
        esac
    elif [[ $command == help ]]; then
        ((COMP_CWORD == 2)) && choices='make deliver list read seen flag move copy expunge clean check play threads index log judge'
    else
        case $before in
            --folder | --from | --add | --remove | --allow | --least | --relies | --by | =) return 0 ;;
        esac
        case $COMP_CWORD/$command in
            2/read | 2/seen | 2/flag | 2/move | 2/copy | 2/expunge | 3/move | 3/copy | */make | */deliver | */list | */clean | */check) compopt -o dirnames 2>/dev/null ;;
            2/threads) choices="$(echo {1..16})" ;;
            2/index) choices="$(echo {1..64})" ;;
            *) compopt -o default 2>/dev/null ;;
        esac
    fi
    COMPREPLY=($(compgen -W "$choices" -- "$word"))
}

complete -F _deolmutt deolmutt

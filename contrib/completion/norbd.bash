# Completion for norbd in bash. Source this file, or copy it to
# /usr/share/bash-completion/completions/norbd.

_norbd() {
    local word=${COMP_WORDS[COMP_CWORD]} before=${COMP_WORDS[COMP_CWORD - 1]}
    local command='' words='' kind=-W
    [ "$COMP_CWORD" -eq 1 ] || command=${COMP_WORDS[1]}
    if [ "$word" = = ]; then # bash cuts --sync=never into three words
        word=''
    elif [ "$before" = = ]; then
        before=${COMP_WORDS[COMP_CWORD - 2]}
    fi
    case $before,$command,$word in
        --sync,*) words='flush always never' ;;
        --tidy,*) words='lazy eager' ;;
        --port,* | --bind,* | --conns,* | --kib,* | --max-request,* | --sectors,* | --spi-hz,*) ;;
        --unix,* | --status,* | --against,*) kind=-f ;;
        *,,-*) words='--help --version -h -V' ;;
        *,,* | *,help,*) words='chip plain format script serve status check unprotect settle
            show read write rescue help' ;;
        *,chip,-*) words='--port --conns --help -h' ;;
        *,plain,-*) words='--sectors --no-record --help -h' ;;
        *,format,-*) words='--kib --force --yes --spi-hz --help -h' ;;
        *,script,-*) words='--kib --help -h' ;;
        *,serve,-*) words='--port --bind --unix --conns --record --sync --tidy --max-request
            --read-only --verbose --trust --status --spi-hz --firm --help -v -h' ;;
        *,status,-*) words='--json --help -h' ;;
        *,check,-*) words='--mend --json --against --spi-hz --help -h' ;;
        *,unprotect,-*) words='--yes --spi-hz --help -h' ;;
        *,show,-* | *,settle,-*) words='--spi-hz --help -h' ;;
        *,rescue,-*) words='--help -h' ;;
        *,read,-*) words='--sectors --spi-hz --help -h' ;;
        *,write,-*) words='--sectors --spi-hz --firm --help -h' ;;
        *,plain,* | *,script,*) ;;
        *) kind=-f ;;
    esac
    if [ "$kind" = -f ]; then
        compopt -o filenames 2>/dev/null
        mapfile -t COMPREPLY < <(compgen -f -- "$word")
    else
        mapfile -t COMPREPLY < <(compgen -W "$words" -- "$word")
    fi
}
complete -F _norbd norbd

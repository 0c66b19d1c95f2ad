# Completion of cubejobs for bash. Made of the program's help by checks/run completions.
_cubejobs() {
    local current=${COMP_WORDS[COMP_CWORD]} last=${COMP_WORDS[COMP_CWORD - 1]} command='' offered=''
    if [ "$COMP_CWORD" -gt 1 ]; then command=${COMP_WORDS[1]}; fi
    case $command in
        help) command='' ;;
        check) if [ "$COMP_CWORD" -gt 2 ]; then command="$command ${COMP_WORDS[2]}"; fi ;;
    esac
    case "$command $last" in
        'run -n'|'run --dim') offered='0 1 2 3 4 5 6 7 8 9 10 11 12' ;;
        'run -o'|'run --output') offered='FILE' ;;
        'run --dispatchers') offered='1 2 3 4 5 6 7 8 9 10 11 12 13 14 15 16' ;;
        'run --capacity') offered='-' ;;
        'run --events') offered='FILE' ;;
        'report -n'|'report --dim') offered='0 1 2 3 4 5 6 7 8 9 10 11 12' ;;
        'report -o'|'report --output') offered='FILE' ;;
        'report --dispatchers') offered='1 2 3 4 5 6 7 8 9 10 11 12 13 14 15 16' ;;
        'report --capacity') offered='-' ;;
        'report --events') offered='FILE' ;;
        'place -n'|'place --dim') offered='0 1 2 3 4 5 6 7 8 9 10 11 12' ;;
        'place -o'|'place --output') offered='FILE' ;;
        'replay -n'|'replay --dim') offered='0 1 2 3 4 5 6 7 8 9 10 11 12' ;;
        'replay -o'|'replay --output') offered='FILE' ;;
        'replay --stations') offered='1 2 3 4 5 6 7 8 9 10 11 12 13 14 15 16 17 18 19 20 21 22 23 24 25 26 27 28 29 30 31 32 33 34 35 36 37 38 39 40 41 42 43 44 45 46 47 48' ;;
        'check run -n'|'check run --dim') offered='0 1 2 3 4 5 6 7 8 9 10 11 12' ;;
        'check place -n'|'check place --dim') offered='0 1 2 3 4 5 6 7 8 9 10 11 12' ;;
        'messages --shape') offered='broadcast reduce allreduce scan exscan' ;;
        'messages -n'|'messages --dim') offered='0 1 2 3 4 5 6 7 8 9 10 11 12' ;;
        'messages --root') offered='-' ;;
    esac
    if [ -z "$offered" ]; then
        case "$current:$command" in
            -*:'') offered='-h --help -V --version' ;;
            -*:'run') offered='-n --dim -o --output --dispatchers --capacity -q --quiet --events --long -h --help -V --version' ;;
            -*:'report') offered='-n --dim -o --output --dispatchers --capacity -q --quiet --events -h --help -V --version' ;;
            -*:'place') offered='-n --dim -o --output -h --help -V --version' ;;
            -*:'replay') offered='-n --dim -o --output --stations -h --help -V --version' ;;
            -*:'check') offered='-h --help -V --version' ;;
            -*:'check run') offered='-n --dim -h --help -V --version' ;;
            -*:'check place') offered='-n --dim -h --help -V --version' ;;
            -*:'check replay') offered='-h --help -V --version' ;;
            -*:'messages') offered='--shape -n --dim --root -h --help -V --version' ;;
            *:'') offered='run report place replay check messages help' ;;
            *:'run') offered='FILE' ;;
            *:'report') offered='FILE' ;;
            *:'place') offered='FILE' ;;
            *:'replay') offered='FILE' ;;
            *:'check') offered='run place replay help' ;;
            *:'check run') offered='FILE' ;;
            *:'check place') offered='FILE' ;;
            *:'check replay') offered='FILE' ;;
            *:'messages') offered='-' ;;
        esac
    fi
    if [ "$offered" = FILE ]; then
        mapfile -t COMPREPLY < <(compgen -f -- "$current")
    elif [ "$offered" = - ]; then
        COMPREPLY=()
    else
        mapfile -t COMPREPLY < <(compgen -W "$offered" -- "$current")
    fi
}
complete -o filenames -F _cubejobs cubejobs

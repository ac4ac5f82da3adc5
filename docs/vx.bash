# Completion of vx for bash: source this file.
_vx() {
    local word=${COMP_WORDS[COMP_CWORD]}
    COMPREPLY=()
    if [ "$COMP_CWORD" -eq 1 ]; then
        mapfile -t COMPREPLY < <(compgen -W 'serve sizes prune scan demo write gen --help --version' -- "$word")
    elif [ "$COMP_CWORD" -eq 2 ] && [[ ${COMP_WORDS[1]} == @(serve|sizes|prune|scan) ]]; then
        mapfile -t COMPREPLY < <(compgen -f -- "$word")
    elif [ "${COMP_WORDS[1]}" = serve ] && [[ ${COMP_WORDS[COMP_CWORD - 1]} != --* || ${COMP_WORDS[COMP_CWORD - 1]} == --meta ]]; then
        mapfile -t COMPREPLY < <(compgen -W '--size --initial --dtype --meta --distance --max --reads --cache' -- "$word")
    elif [ "$COMP_CWORD" -eq 3 ] && [ "${COMP_WORDS[1]}" = sizes ]; then
        mapfile -t COMPREPLY < <(compgen -W '--dtype' -- "$word")
    elif [ "${COMP_WORDS[1]}" = write ]; then
        mapfile -t COMPREPLY < <(compgen -W '--no-dtype --no-stats --block --target --meta --v2' -- "$word")
    elif [ "$COMP_CWORD" -eq 3 ] && [ "${COMP_WORDS[1]}" = scan ]; then
        mapfile -t COMPREPLY < <(compgen -W '--dtype --filter' -- "$word")
    elif [ "${COMP_WORDS[1]}" = scan ]; then
        mapfile -t COMPREPLY < <(compgen -W '--filter lit root field cast add eq ne lt le gt ge and or not isnull notnull' -- "$word")
    elif [ "${COMP_WORDS[1]}" = prune ]; then
        mapfile -t COMPREPLY < <(compgen -W '--dtype lit root field cast add eq ne lt le gt ge and or not isnull notnull' -- "$word")
    fi
}
complete -o filenames -F _vx vx ./vx

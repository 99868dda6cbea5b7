# Completion of lakebridge for bash.
_lakebridge() {
    local word="${COMP_WORDS[COMP_CWORD]}" most=0 left=() format
    case "${COMP_WORDS[2]:-}" in
        sync | full) most=5 ;;
        check) most=4 ;;
        show | sweep) most=3 ;;
    esac
    COMPREPLY=()
    if [ "$COMP_CWORD" = 1 ]; then
        # Folders are found by bash itself, which knows of quotes, `~` and variables.
        compopt -o dirnames
    elif [ "$COMP_CWORD" = 2 ]; then
        mapfile -t COMPREPLY < <(compgen -W "sync full check show sweep compact drill batch" -- "$word")
    elif [ "$COMP_CWORD" -le "$most" ]; then
        for format in delta hudi iceberg; do
            case " ${COMP_WORDS[*]:3:COMP_CWORD-3} " in
                *" $format "*) ;;
                *) left+=("$format") ;;
            esac
        done
        mapfile -t COMPREPLY < <(compgen -W "${left[*]}" -- "$word")
    fi
}
complete -F _lakebridge lakebridge

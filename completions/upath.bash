# Completion of upath for bash. It reads the commands and options from the program's help.

# Prints the commands that the help text of the program lists.
_upath_commands() {
    command "$1" --help 2> /dev/null | sed -nE '/^Commands:/,/^$/s/^  ([a-z]+).*/\1/p'
}

# Prints the options that a help text lists.
_upath_options() {
    command "$@" --help 2> /dev/null | sed -nE 's/^ {2,6}(-[a-z])?(, )?(--[a-z-]+=?)?.*/\1 \3/p'
}

_upath() {
    local word=${COMP_WORDS[COMP_CWORD]} it command='' value='' ended='' found
    for it in "${COMP_WORDS[@]:1:COMP_CWORD-1}"; do
        # Readline makes three words of `--from=DIR`.
        case $ended:$value:$it in
            *:?*:=) ;;
            *:?*:*) value= ;;
            ::--) ended=1 ;;
            ::--from | ::--or) value=$it ;;
            ::-*) ;;
            *) command=${command:-$it} ;;
        esac
    done
    case $value:$ended:$word in
        --from:*) compopt -o dirnames ;;
        --or:*) ;;
        ::-*)
            found="$(_upath_options "$1") ${command:+$(_upath_options "$1" "$command")}"
            if [ "$command" = archive ]; then
                found=$(sed -E '/^(-p --pair| --or=)$/d' <<< "$found")
            fi
            mapfile -t COMPREPLY < <(compgen -W "$found" -- "$word")
            [[ ${COMPREPLY[0]} == *= ]] && compopt -o nospace
            ;;
        ::* | :1:*)
            if [ -n "$command" ]; then
                compopt -o default
            else
                mapfile -t COMPREPLY < <(compgen -W "$(_upath_commands "$1")" -- "$word")
            fi
            ;;
    esac
}
complete -F _upath upath

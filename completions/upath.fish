# Completion of upath for fish. It reads the commands and options from the program's help.

# Prints the options that a help text lists, each with its text.
function __upath_options
    for line in (command $argv --help 2>/dev/null)
        set -l names '^ {2,6}((?:-[a-z])?)(?:, )?((?:--[a-z-]+=?)?)'
        set -l part (string match -r "$names"'\S*  +(.*)' -- $line)
        for name in $part[2] $part[3]
            test -n "$name"; and printf '%s\t%s\n' $name $part[4]
        end
    end
end

# Prints the commands, each with its text.
function __upath_commands
    command $argv --help 2>/dev/null \
        | string replace -rf '^  ([a-z]+)(?: [A-Z-].*?)?  +(.*)' '$1'\t'$2'
end

# Prints what can come next. Fails if a file can.
function __upath_next
    set -l words (commandline -opc)
    set -l word (commandline -ct)
    set -l command
    set -l value
    set -l ended
    for it in $words[2..]
        switch "$ended:$value:$it"
            case '*:?*:*'
                set value
            case ::--
                set ended 1
            case ::--from ::--or
                set value $it
            case '::-*'
            case '*'
                set command $command $it
        end
    end
    switch "$value:$ended:$word"
        case '--from:*'
            __fish_complete_directories $word
        case '--or:*' '::--or=*'
        case '::--from=*'
            for it in (__fish_complete_directories (string sub -s 8 -- $word))
                echo --from=$it
            end
        case '::-*'
            if test "$command[1]" = archive
                __upath_options $words[1] | string match -rv '^(-p|--pair|--or=)\t'
            else
                __upath_options $words[1]
            end
            if set -q command[1]
                __upath_options $words[1] $command[1]
            end
        case '*'
            set -q command[1]; and return 1
            __upath_commands $words[1]
    end
    return 0
end
complete -c upath -n '__upath_next >/dev/null' -f -a '(__upath_next)'

# Completion of hub for bash, written by 'hub help --bash': source this file.
_hub() {
    local word=${COMP_WORDS[COMP_CWORD]} options=''
    if [ "$COMP_CWORD" -eq 1 ]; then
        mapfile -t COMPREPLY < <(compgen -W 'run compare check test delays bound cells wire draw wave show verilog slow compile join read begin go start outline assemble format times help' -- "$word")
        return
    fi
    case ${COMP_WORDS[1]} in
        run) options='--budget --start --all --as --times --procedures --pulse --functional --json' ;;
        compare) options='--budget --start --all --as --times --procedures --pulse --json' ;;
        check) options='--deny --as --times --procedures --pulse --functional --json' ;;
        test) options='--as --times --procedures --pulse --functional --json' ;;
        delays) options='-o --as --times --procedures --pulse --json' ;;
        bound) options='--as --times --procedures --pulse --functional --json' ;;
        cells) options='-o --all --as --times --procedures --pulse --functional --json' ;;
        wire) options='-o --json' ;;
        draw) options='-o --format --all --as --times --procedures --pulse --functional --json' ;;
        wave) options='--from --to --start --starts --wires -o --format --all --as --times --procedures --pulse --functional --json' ;;
        show) options='-o --start --to --starts --as --times --procedures --pulse --functional --json' ;;
        verilog) options='--budget -o --start --as --times --procedures --pulse --functional --json' ;;
        slow) options='--at --budget --start --to --wires -o --format --all --wave --as --times --procedures --json' ;;
        compile) options='-o --as --times --procedures --pulse --functional --json' ;;
        join) options='-o --as --times --procedures --pulse --json' ;;
        read) options='-o --as --times --procedures --pulse --json' ;;
        begin) options='-o --start --all --bare --compact --as --times --procedures --pulse --functional --json' ;;
        go) options='--by -o --all --bare --compact --as --times --procedures --pulse --functional --json' ;;
        start) options='-o --all --bare --compact --as --times --procedures --pulse --functional --json' ;;
        outline) options='-o --as --times --procedures --pulse --json' ;;
        assemble) options='-o --unchecked --times --procedures --pulse --json' ;;
        format) options='-o --as --times --procedures --pulse --json' ;;
        times) options='-o --json' ;;
        help) options='--bash --man --json' ;;
    esac
    if [ "${COMP_WORDS[COMP_CWORD-1]}" = --as ]; then
        options='text short outline program netlist'
    elif [ "${COMP_WORDS[1]}" = help ] && [ "$COMP_CWORD" -eq 2 ]; then
        options="$options run compare check test delays bound cells wire draw wave show verilog slow compile join read begin go start outline assemble format times help"
    elif [ "${word#-}" = "$word" ]; then
        mapfile -t COMPREPLY < <(compgen -f -- "$word")
        return
    fi
    mapfile -t COMPREPLY < <(compgen -W "$options" -- "$word")
}
complete -o filenames -F _hub hub ./hub

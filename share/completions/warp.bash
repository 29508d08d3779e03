# Completion of warp for bash: source this file.

# The actions that the automata of a source put out or do inside, by their names.
_warp_actions() {
    sed -n 's/^ *\(output\|internal\) *\([A-Za-z][A-Za-z0-9_]*\).*/\2/p' -- "$1" 2>/dev/null | LC_ALL=C sort -u
}

_warp() {
    local word=${COMP_WORDS[COMP_CWORD]} before=${COMP_WORDS[COMP_CWORD - 1]}
    local turns="--seed --stream --gap --from-zero --ticks --table"
    local written="$turns --trace --head --progress"
    local command=${COMP_WORDS[1]} options=""
    if ((COMP_CWORD == 1)); then
        mapfile -t COMPREPLY < <(compgen -W "print format reference run check drive hunt draw explain help --help --version" -- "$word")
        return
    fi
    case $before in
    --seed | --seeds | --stream | --gap | --ticks | --workers | --budget | --window | --groups | --from | --to) return ;;
    --table | --steps | --actions)
        mapfile -t COMPREPLY < <(compgen -f -- "$word")
        return
        ;;
    esac
    case $command in
    format) options="--check" ;;
    reference | drive) options=$written ;;
    run) options="$written --workers --budget --window --groups --stats" ;;
    hunt) options="--seeds --stream --gap --from-zero --ticks --workers --count --progress" ;;
    draw) options="$turns --from --to" ;;
    explain) options="--table --steps --actions" ;;
    help)
        mapfile -t COMPREPLY < <(compgen -W "print format reference run check drive hunt draw explain" -- "$word")
        return
        ;;
    esac
    if [[ $word == -* ]]; then
        mapfile -t COMPREPLY < <(compgen -W "$options --help" -- "$word")
    elif [[ $command == hunt && $COMP_CWORD -eq 3 && -r ${COMP_WORDS[2]} ]]; then
        mapfile -t COMPREPLY < <(compgen -W "$(_warp_actions "${COMP_WORDS[2]}")" -- "$word")
    else
        mapfile -t COMPREPLY < <(compgen -f -- "$word")
    fi
}
complete -F _warp warp ./warp

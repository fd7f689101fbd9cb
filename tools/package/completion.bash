# Completion of seedlinkd for bash, from what the program says of itself with --help: its commands, and the options and
# texts of each. So an option that is added is completed with no change here.

# The options that a help tells of.
_seedlinkd_options() {
    sed -nE 's/^ +(-., )?(--[a-z-]+).*/\2/p' <<<"$1"
}

# What the value of an option is called; nothing if it is a flag.
_seedlinkd_value() {
    sed -nE "s/^ +(-., )?$2 <([^>]+)>.*/\2/p" <<<"$1"
}

# What the text at a place is called, from 1; the last one of a help may stand for several.
_seedlinkd_text() {
    local texts
    mapfile -t texts < <(sed -nE '/^Arguments:/,/^$/s/^  [[<]([A-Z]+)[]>](\.\.\.)?.*/\1\2/p' <<<"$1")
    local last=${#texts[@]}
    if [ "$2" -le "$last" ]; then
        echo "${texts[$2 - 1]%...}"
    elif [ "$last" -gt 0 ] && [[ ${texts[last - 1]} == *... ]]; then
        echo "${texts[last - 1]%...}"
    fi
}

_seedlinkd() {
    local program=${COMP_WORDS[0]} current=${COMP_WORDS[COMP_CWORD]} command= help word wanted= place=1 is_joined=
    for word in "${COMP_WORDS[@]:1:COMP_CWORD-1}"; do
        if [[ $word != -* ]]; then
            command=$word
            break
        fi
    done
    COMPREPLY=()
    # What --help has a page of, beside the commands, as its last lines say.
    if [[ ${COMP_WORDS[COMP_CWORD - 1]} == @(--help|-h) ]]; then
        [ "$COMP_CWORD" = 2 ] && mapfile -t COMPREPLY < <(compgen -W faults -- "$current")
        return
    fi
    help=$("$program" ${command:+"$command"} --help 2>/dev/null) || return
    if [ -z "$command" ]; then
        local commands
        commands=$(sed -nE '/^Commands:/,/^$/s/^  ([a-z]+) .*/\1/p' <<<"$help")
        mapfile -t COMPREPLY < <(compgen -W "$commands $(_seedlinkd_options "$help")" -- "$current")
        return
    fi
    # Which option still wants its value, and how many texts stand before. Bash cuts words at : and =.
    for word in "${COMP_WORDS[@]:1:COMP_CWORD-1}"; do
        case $word in
            =) ;;
            :) is_joined=1 ;;
            -*) wanted=$(_seedlinkd_value "$help" "$word") ;;
            *)
                if [ -n "$is_joined" ]; then
                    is_joined=
                elif [ -n "$wanted" ]; then
                    wanted=
                elif [ "$word" != "$command" ]; then
                    place=$((place + 1))
                fi
                ;;
        esac
    done
    if [ -z "$wanted" ] && [[ $current == -* ]]; then
        mapfile -t COMPREPLY < <(compgen -W "$(_seedlinkd_options "$help")" -- "$current")
        return
    fi
    [ "$current" = "=" ] && current=
    case ${wanted:-$(_seedlinkd_text "$help" "$place")} in
        CONFIG | SCRIPT | FILE | DIR | WHO) mapfile -t COMPREPLY < <(compgen -f -- "$current") ;;
    esac
}
complete -o filenames -F _seedlinkd seedlinkd

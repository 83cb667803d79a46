# Completions of bash for the commands muni and ./muni: the commands, the options of each that are not given
# yet, the values of those that have a few, the files of stores, and files after < and >. An install puts them in
# their place; from a clone `. docs/muni.bash` loads them.

# Made of the launcher's tables by tests/documents/made_pages.py.
_muni_commands='quote-one quote import confirm serve drill positions mark export list load check-store figures check help'
_muni_flags=' --each --risk --all --issues --header '

_muni_options() {
    case $1 in
    quote) echo --kind --dated --first --maturity --settle --coupon --yield --price --rate --call --days --par --each --risk --workers ;;
    import) echo --store --workers --positions --desk-limit ;;
    confirm) echo --store --desk --ref --all ;;
    serve) echo --store --port --connections --workers --desk-limit ;;
    drill) echo --count --seed --workers ;;
    positions) echo --store --desk ;;
    mark) echo --store ;;
    export) echo --store --desk --issues ;;
    list) echo --store --desk ;;
    load) echo --store --desk-limit ;;
    check-store) echo --store ;;
    figures) echo --store --workers --from --header --risk ;;
    check) echo --store --desk ;;
    esac
}

_muni_values() {
    case $1 in
    --kind) echo periodic zero at-redemption discount ;;
    --days) echo 30/360 actual/365 ;;
    esac
}

# The values of an option that begin as the word does.
_muni_complete_value() {
    if [ "$1" = --store ]; then
        compopt -o filenames 2>/dev/null
        mapfile -t COMPREPLY < <(compgen -f -- "$2")
    else
        mapfile -t COMPREPLY < <(compgen -W "$(_muni_values "$1")" -- "$2")
    fi
}

_muni() {
    local word=${COMP_WORDS[COMP_CWORD]} before=${COMP_WORDS[COMP_CWORD - 1]} choices='' option place
    COMPREPLY=()
    if [[ $before == [\<\>] || $before == '>>' || $before == '2>' ]]; then
        # A file for the input, the output or the words on standard error.
        compopt -o filenames 2>/dev/null
        mapfile -t COMPREPLY < <(compgen -f -- "$word")
        return
    elif [ "$COMP_CWORD" -eq 1 ]; then
        choices="$_muni_commands --help --version"
        # What is installed has no sources to build.
        case ${COMP_WORDS[0]} in
        */*) choices+=' build dist install package test' ;;
        esac
    elif [ "$word" = = ]; then
        # bash takes `--kind=zero` for three words.
        _muni_complete_value "$before" ''
        return
    elif [ "$before" = = ]; then
        _muni_complete_value "${COMP_WORDS[COMP_CWORD - 2]}" "$word"
        return
    elif [ "${COMP_WORDS[1]}" = install ] || [ "${COMP_WORDS[1]}" = package ]; then
        compopt -o filenames 2>/dev/null
        mapfile -t COMPREPLY < <(compgen -d -- "$word")
        return
    else
        for option in $(_muni_options "${COMP_WORDS[1]}"); do
            for place in "${!COMP_WORDS[@]}"; do
                if [ "$place" -ne "$COMP_CWORD" ] && [ "${COMP_WORDS[place]}" = "$option" ] &&
                    [ "$option" != --call ]; then
                    continue 2
                fi
            done
            case $_muni_flags in
            *" $option "*) choices+=" $option" ;;
            *) choices+=" $option=" ;;
            esac
        done
        choices+=' --help'
        compopt -o nospace 2>/dev/null
    fi
    mapfile -t COMPREPLY < <(compgen -W "$choices" -- "$word")
}

complete -F _muni muni ./muni

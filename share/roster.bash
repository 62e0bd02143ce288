# Completion for bash of roster, roster-page, roster-table, roster-coverage and roster-calendar.

# Offers names of files.
_roster_files() {
    compopt -o filenames 2>/dev/null
    mapfile -t COMPREPLY < <(compgen -f -- "$1")
}

# Offers words.
_roster_words() {
    mapfile -t COMPREPLY < <(compgen -W "$1" -- "$2")
}

_roster() {
    local current=${COMP_WORDS[COMP_CWORD]}
    COMPREPLY=()
    case $COMP_CWORD:${COMP_WORDS[1]} in
        1:*) _roster_words "solve curve check value rest relax-rules relax-demand reuse explain rank next fits make" "$current" ;;
        [234]:solve | [234]:curve | 6:solve) _roster_files "$current" ;;
        5:solve | 5:curve | 4:make) _roster_words "1 10 100 1000 60s 600s" "$current" ;;
        [234]:check | [234]:value | [234]:rest | [234]:reuse) _roster_files "$current" ;;
        2:relax-rules | [23]:relax-demand) _roster_files "$current" ;;
        4:relax-demand) _roster_words "floors ceilings" "$current" ;;
        2:explain | 2:rank | 2:next | 2:fits | 3:make) _roster_files "$current" ;;
        3:rank) _roster_words "1 10 100 1000" "$current" ;;
    esac
}

_roster_page() {
    local most=4
    case ${COMP_WORDS[0]##*/} in
        roster-page) most=5 ;;
    esac
    COMPREPLY=()
    [ "$COMP_CWORD" -gt "$most" ] || _roster_files "${COMP_WORDS[COMP_CWORD]}"
}

complete -F _roster roster
complete -F _roster_page roster-page roster-table roster-coverage roster-calendar

# Completion in bash for evats, evats-talk, evats-causes and evats-workbench: their options, and files of commands. Which options
# there are, and what they take, is read from the help of the command itself.
_evats() {
    local command=${1/#\~/$HOME} word=$2 before=$3 line takes= options=()
    while read -r line; do
        # As `-h, --help  Print help`, `--budget <N>  The most ..` or `--out FILE.svg  where ..`.
        if [[ $line =~ ^(-.,\ )?(--[a-z-]+)(\ \<?([A-Za-z.]+))? ]]; then
            options+=("${BASH_REMATCH[2]}")
            [[ ${BASH_REMATCH[2]} == "$before" ]] && takes=${BASH_REMATCH[4]}
        fi
    done < <("$command" --help 2> /dev/null)
    COMPREPLY=()
    if [[ $takes == FILE* || $takes == PROGRAM ]]; then
        mapfile -t COMPREPLY < <(compgen -f -- "$word")
    elif [[ $takes ]]; then
        # A number, or the name of an event.
        return
    elif [[ $word == -* ]]; then
        mapfile -t COMPREPLY < <(compgen -W "${options[*]}" -- "$word")
    else
        mapfile -t COMPREPLY < <(compgen -d -- "$word"; compgen -f -X '!*.evats' -- "$word")
    fi
}
complete -o filenames -F _evats evats evats-talk evats-causes evats-workbench

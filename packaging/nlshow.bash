# Completes the words of nlshow by what its own help names.
_nlshow() {
    local word=${COMP_WORDS[COMP_CWORD]} help words=
    help=$("$1" --help 2> /dev/null)
    if [[ ${COMP_WORDS[COMP_CWORD - 1]} == --as ]]; then
        # behind the colon of this option, to the next one
        words=$(sed -n '/--as KIND  /,/--links FILE/ { /--links/d; s/.*: //; s/,\| or / /g; p }' <<< "$help")
    elif [[ $word == -* ]]; then
        words=$(grep -o -- '--[a-z]*' <<< "$help" | sort -u)
    fi
    mapfile -t COMPREPLY < <(compgen -W "$words" -- "$word")
}
# where nothing is named, a file
complete -o default -F _nlshow nlshow

# Completion of goose for bash. It asks the goose that is being completed for its commands and their options.
_goose() {
    local word=${COMP_WORDS[COMP_CWORD]} asked=${COMP_WORDS[0]//\\/} goose words
    asked=${asked/#\~\//$HOME/}
    # The command of a checkout would build the program first: here the one that is built is asked.
    goose=$(readlink -f "$(type -P -- "$asked")")
    [ -x "${goose%/*}/tools/build" ] && goose=${goose%/*}/crates/goose/out/goose
    if [ "$COMP_CWORD" -eq 1 ]; then
        words=$("${goose:-${COMP_WORDS[0]}}" --help 2>/dev/null |
            awk '/^Commands:/ { on = 1; next } /^[^ ]/ { on = 0 } on && /^  [a-z]/ { print $1 }')
        words+=" --help --version"
    elif [ "${word:0:1}" = - ]; then
        words=$("${goose:-${COMP_WORDS[0]}}" "${COMP_WORDS[1]}" --help 2>/dev/null | grep -oE -- '--[a-z-]+' | sort -u)
    fi
    mapfile -t COMPREPLY < <(compgen -W "${words-}" -- "$word")
}
complete -o default -F _goose goose

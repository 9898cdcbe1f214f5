# Completions of lorukinde for bash. What there is to complete is what `lorukinde --help` shows: its commands and options.
_lorukinde() {
    local help word=${COMP_WORDS[COMP_CWORD]} before=${COMP_WORDS[COMP_CWORD - 1]}
    help=$("${COMP_WORDS[0]}" --help 2>/dev/null) || return
    if [ "$before" = --edition ]; then
        mapfile -t COMPREPLY < <(compgen -W "1 2" -- "$word")
    elif [[ $word = -* ]]; then
        mapfile -t COMPREPLY < <(compgen -W "$(grep -oE -- '--[a-z]+' <<<"$help" | sort -u)" -- "$word")
    elif [ "$COMP_CWORD" = 1 ]; then
        mapfile -t COMPREPLY < <(compgen -W "$(sed -n 's/^    lorukinde \([a-z][a-z]*\).*/\1/p' <<<"$help")" -- "$word")
    else
        mapfile -t COMPREPLY < <(compgen -f -- "$word")
    fi
}
complete -o filenames -F _lorukinde lorukinde

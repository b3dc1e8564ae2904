# Completion of `cool-explain` for bash: its option, and Cool files.
_cool_explain() {
    local word=${COMP_WORDS[COMP_CWORD]}
    COMPREPLY=()
    if [[ $word == -* ]]; then
        mapfile -t COMPREPLY < <(compgen -W '--lines' -- "$word")
        return
    fi
    compopt -o filenames
    mapfile -t COMPREPLY < <(
        compgen -d -- "$word"
        compgen -f -X '!*.cl' -- "$word" | while IFS= read -r file; do [ -d "$file" ] || printf '%s\n' "$file"; done
    )
}
complete -F _cool_explain cool-explain

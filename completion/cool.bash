# Completion of `cool` for bash: commands, the options of the command, and files.
_cool() {
    local word=${COMP_WORDS[COMP_CWORD]} command=${COMP_WORDS[1]-} options='' files='*.cl'
    COMPREPLY=()
    if [ "$COMP_CWORD" -eq 1 ]; then
        mapfile -t COMPREPLY < <(compgen -W 'check run eval asm build exec debug session big' -- "$word")
        return
    fi
    case $command in
        run) options='--heap --stack --steps --fold' ;;
        eval) options='--steps' ;;
        exec) options='--heap --stack --steps' files='*.@(s|asm|img)' ;;
        debug) options='--heap --stack --steps' files='*' ;;
        session | big) return ;;
    esac
    case ${COMP_WORDS[COMP_CWORD - 1]} in --heap | --stack | --steps) return ;; esac
    if [[ $word == -* ]]; then
        mapfile -t COMPREPLY < <(compgen -W "$options" -- "$word")
        return
    fi
    compopt -o filenames
    mapfile -t COMPREPLY < <(
        compgen -d -- "$word"
        shopt -s extglob
        compgen -f -X "!$files" -- "$word" | while IFS= read -r file; do [ -d "$file" ] || printf '%s\n' "$file"; done
    )
}
complete -F _cool cool

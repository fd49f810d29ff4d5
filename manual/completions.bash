# Completions for bash of abc2midi_live and its clients. The options are those that --help prints; a value goes by its option.

_abc2midi_live() {
    local word=${COMP_WORDS[COMP_CWORD]} before=${COMP_WORDS[COMP_CWORD - 1]}
    compopt -o filenames 2>/dev/null
    COMPREPLY=()
    case $before in
    --dir | --to) mapfile -t COMPREPLY < <(compgen -d -- "$word") ;;
    --play) mapfile -t COMPREPLY < <(compgen -c -- "$word") ;;
    --program | --library | --report | --losses) mapfile -t COMPREPLY < <(compgen -f -- "$word") ;;
    --catalogue) mapfile -t COMPREPLY < <(compgen -W 'csv jsonl' -- "$word") ;;
    --number-by) mapfile -t COMPREPLY < <(compgen -W 'number place' -- "$word") ;;
    --port | --jobs | --scheduler | --include | --exclude) ;;
    *)
        if [[ $word == -* ]]; then
            mapfile -t COMPREPLY < <(compgen -W "$("$1" --help 2>&1 | grep -oE -- '--[a-z][a-z-]*' | sort -u)" -- "$word")
        else
            mapfile -t COMPREPLY < <(compgen -d -- "$word"; [[ $1 == *uninstall ]] || compgen -f -X '!*.abc' -- "$word")
        fi
        ;;
    esac
}

complete -F _abc2midi_live abc2midi_live abc2midi_live-{watch,page,language-server,archive,uninstall}

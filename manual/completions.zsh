#compdef abc2midi_live abc2midi_live-watch abc2midi_live-page abc2midi_live-language-server abc2midi_live-archive abc2midi_live-uninstall
# Completions for zsh of abc2midi_live and its clients. The options are those that --help prints; a value goes by its option.

local -a options
case ${words[CURRENT-1]} in
--dir|--to) _files -/ ;;
--play) _command_names -e ;;
--program|--library|--report|--losses) _files ;;
--catalogue) compadd -- csv jsonl ;;
--number-by) compadd -- number place ;;
--port|--jobs|--scheduler|--include|--exclude) ;;
*)
    if [[ ${words[CURRENT]} == -* ]]; then
        options=(${(fu)"$(${words[1]} --help 2>&1 | grep -oE -- '--[a-z][a-z-]*')"})
        compadd -- $options
    elif [[ ${words[1]} == *uninstall ]]; then
        _files -/
    else
        _files -g '*.abc(-.)'
    fi
    ;;
esac

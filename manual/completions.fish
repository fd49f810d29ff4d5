# Completions for fish of abc2midi_live and its clients. The options are those that --help prints; a value goes by its option.

function __abc2midi_live_options
    set -l command (commandline -opc)[1]
    $command --help 2>&1 | string match -ra -- '--[a-z][a-z-]*' | sort -u
end

function __abc2midi_live_before
    contains -- (commandline -opc)[-1] $argv
end

for command in abc2midi_live abc2midi_live-watch abc2midi_live-page abc2midi_live-language-server abc2midi_live-archive abc2midi_live-uninstall
    complete -c $command -f
    complete -c $command -n 'string match -q -- "-*" (commandline -ct)' -a '(__abc2midi_live_options)'
    complete -c $command -n '__abc2midi_live_before --dir --to' -a '(__fish_complete_directories)'
    complete -c $command -n '__abc2midi_live_before --play' -a '(__fish_complete_command)'
    complete -c $command -n '__abc2midi_live_before --program --library --report --losses' -F
    complete -c $command -n '__abc2midi_live_before --catalogue' -a 'csv jsonl'
    complete -c $command -n '__abc2midi_live_before --number-by' -a 'number place'
    complete -c $command -n 'not __abc2midi_live_before --dir --to --play --program --library --report --losses --catalogue --number-by --port --jobs --scheduler --include --exclude; and not string match -q -- "-*" (commandline -ct)' -a '(__fish_complete_suffix .abc)'
end

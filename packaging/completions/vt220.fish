# Completions of vt220 for fish.

# Prints the formats, as the help of the program lists them.
function __vt220_formats
    vt220 text --help 2>/dev/null | string replace -rf '.*FILE was recorded: (.*) \[.*' '$1' | string replace ' or ' ', ' | string split ', '
end

set -l commands text reports repaint status show picture log trace events content
complete -c vt220 -n "not __fish_seen_subcommand_from $commands help" -f
complete -c vt220 -n "not __fish_seen_subcommand_from $commands help" -a text -d 'The screen as text'
complete -c vt220 -n "not __fish_seen_subcommand_from $commands help" -a reports -d 'What the terminal answers to the host'
complete -c vt220 -n "not __fish_seen_subcommand_from $commands help" -a repaint -d 'The bytes that rebuild the terminal'
complete -c vt220 -n "not __fish_seen_subcommand_from $commands help" -a status -d 'The cursor, the margins and the unfinished sequence'
complete -c vt220 -n "not __fish_seen_subcommand_from $commands help" -a show -d 'The screen with its attributes'
complete -c vt220 -n "not __fish_seen_subcommand_from $commands help" -a picture -d 'The screen as SVG'
complete -c vt220 -n "not __fish_seen_subcommand_from $commands help" -a log -d 'The lines that scroll off, and then the screen'
complete -c vt220 -n "not __fish_seen_subcommand_from $commands help" -a trace -d 'A line for each event'
complete -c vt220 -n "not __fish_seen_subcommand_from $commands help" -a events -d 'A line for each event of a recording'
complete -c vt220 -n "not __fish_seen_subcommand_from $commands help" -a content -d 'The bytes of the host'
complete -c vt220 -n "not __fish_seen_subcommand_from $commands help" -a help -d 'Help on a command'
complete -c vt220 -n "not __fish_seen_subcommand_from $commands help" -s V -l version -d 'Print the version'
complete -c vt220 -n "__fish_seen_subcommand_from $commands" -l piece -x -d 'The most bytes of one read'
complete -c vt220 -n "__fish_seen_subcommand_from $commands" -l limit -x -d 'The most bytes of the input'
complete -c vt220 -n "__fish_seen_subcommand_from $commands" -l format -x -a '(__vt220_formats)' -d 'How the input was recorded'
complete -c vt220 -n "__fish_seen_subcommand_from $commands" -l timing -r -d 'The times of a recording by script'
complete -c vt220 -n "__fish_seen_subcommand_from $commands" -l from -x -d 'Only what comes from there on'
complete -c vt220 -n "__fish_seen_subcommand_from $commands" -l until -x -d 'Only what came up to it'
complete -c vt220 -n "__fish_seen_subcommand_from $commands" -l encoding -x -a 'dec utf-8 auto' -d 'How the bytes are read'
complete -c vt220 -n "__fish_seen_subcommand_from $commands" -l terminal -x -a 'vt220 xterm auto' -d 'The terminal for which the host sends'
complete -c vt220 -n "__fish_seen_subcommand_from $commands" -l columns -x -a '80 132 auto' -d 'The columns of the screen'
complete -c vt220 -n "__fish_seen_subcommand_from $commands" -l size -x -a 'auto' -d 'Its columns and rows'
complete -c vt220 -n "__fish_seen_subcommand_from $commands" -l full -d 'All that the recording has, for events'
complete -c vt220 -n "__fish_seen_subcommand_from $commands" -l partial -d 'What came before a break is enough'
complete -c vt220 -n "__fish_seen_subcommand_from $commands" -l quiet -d 'No notes'
complete -c vt220 -n "__fish_seen_subcommand_from help" -f -a "$commands"
complete -c vt220 -s h -l help -d 'Print the help'

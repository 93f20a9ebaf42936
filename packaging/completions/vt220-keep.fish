# Completions of vt220-keep for fish.
function __vt220_keep_sessions
    vt220-keep list --tsv 2>/dev/null | cut -f 1
end
set -l commands new attach detach list text log repaint send kill rename upgrade serve help version
set -l sessions attach detach text log repaint send kill rename upgrade serve
set -l keys 'Return Enter Delete Backspace Tab Space Escape Find Home InsertHere Insert Remove Select End PrevScreen PageUp NextScreen PageDown' \
    'Up Down Right Left PF1 PF2 PF3 PF4 F1 F2 F3 F4 KP0 KP1 KP2 KP3 KP4 KP5 KP6 KP7 KP8 KP9 KPMinus KPComma KPPeriod KPEnter F5 F6 F7 F8 F9 F10 F11 F12 F13 F14 Help F15 Do F16 F17 F18 F19 F20 C-c C-d'
complete -c vt220-keep -n "not __fish_seen_subcommand_from $commands" -f -a "$commands"
complete -c vt220-keep -n "__fish_seen_subcommand_from $sessions" -f -a '(__vt220_keep_sessions)'
complete -c vt220-keep -n '__fish_seen_subcommand_from new' -s A -d 'Attach to it'
complete -c vt220-keep -n '__fish_seen_subcommand_from new' -l locale -x -d 'The locale of the command'
complete -c vt220-keep -n '__fish_seen_subcommand_from new' -l encoding -x -a 'dec utf-8' -d 'What the command writes'
complete -c vt220-keep -n '__fish_seen_subcommand_from new' -l terminal -x -a 'vt220 xterm' -d 'The terminal that it writes for'
complete -c vt220-keep -n '__fish_seen_subcommand_from new' -l size -x -d 'Its columns and rows'
complete -c vt220-keep -n '__fish_seen_subcommand_from attach' -s r -d 'Only show it'
complete -c vt220-keep -n '__fish_seen_subcommand_from serve' -l socket -r -d 'Listen to a socket of the file system'
complete -c vt220-keep -n '__fish_seen_subcommand_from serve' -l port -x -d 'The port of 127.0.0.1'
complete -c vt220-keep -n '__fish_seen_subcommand_from list' -l tsv -d 'A line for each session, for scripts'
complete -c vt220-keep -n '__fish_seen_subcommand_from send' -f -a "$keys"
complete -c vt220-keep -n '__fish_seen_subcommand_from send' -s l -d 'Each key is text'
complete -c vt220-keep -s h -l help -d 'Print the help'
complete -c vt220-keep -n "not __fish_seen_subcommand_from $commands" -l version -d 'Print the version'

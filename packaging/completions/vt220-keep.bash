# Completions of vt220-keep for bash.
_vt220_keep_sessions() {
  vt220-keep list --tsv 2>/dev/null | cut -f 1
}
_vt220_keep() {
  local word=${COMP_WORDS[COMP_CWORD]} command=${COMP_WORDS[1]} index=1 options='-h --help' words=
  if [ "$COMP_CWORD" -eq 1 ]; then
    mapfile -t COMPREPLY < <(compgen -W 'new attach detach list text log repaint send kill rename upgrade serve help version -h --help --version' -- "$word")
    return
  fi
  # How many words after the command aren't options: the first of them is the session.
  local at
  for ((at = 2; at < COMP_CWORD; at++)); do
    if [[ ${COMP_WORDS[at]} != -* || $index -gt 1 ]]; then index=$((index + 1)); fi
  done
  case $command in
    new) options="$options -A --locale= --encoding= --terminal= --size=" ;;
    attach) options="$options -r" ;;
    list) options="$options --tsv" ;;
    send) options="$options -l" ;;
    serve) options="$options --socket= --port=" ;;
  esac
  if [ "$index" -eq 1 ]; then
    case $command in attach | detach | text | log | repaint | send | kill | rename | upgrade | serve) words=$(_vt220_keep_sessions) ;; esac
    if [[ $word == -* ]]; then words=$options; fi
    mapfile -t COMPREPLY < <(compgen -W "$words" -- "$word")
    return
  fi
  case $command in
    new)
      if [ "$index" -eq 2 ]; then mapfile -t COMPREPLY < <(compgen -c -- "$word" | sort -u); else mapfile -t COMPREPLY < <(compgen -f -- "$word"); fi
      compopt -o filenames 2>/dev/null
      ;;
    send)
      mapfile -t COMPREPLY < <(compgen -W 'Return Enter Delete Backspace Tab Space Escape Find Home InsertHere Insert Remove Select End PrevScreen PageUp NextScreen PageDown
        Up Down Right Left PF1 PF2 PF3 PF4 F1 F2 F3 F4 KP0 KP1 KP2 KP3 KP4 KP5 KP6 KP7 KP8 KP9 KPMinus KPComma KPPeriod KPEnter
        F5 F6 F7 F8 F9 F10 F11 F12 F13 F14 Help F15 Do F16 F17 F18 F19 F20 C-c C-d' -- "$word")
      ;;
    *) COMPREPLY=() ;;
  esac
}
complete -F _vt220_keep vt220-keep

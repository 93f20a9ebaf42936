# Completions of vt220 for bash.

# Prints the formats, as the help of the program lists them.
_vt220_formats() { vt220 text --help 2>/dev/null | sed -n 's/.*FILE was recorded: \(.*\) \[.*/\1/p' | sed 's/ or / /; s/,//g'; }

_vt220() {
  local commands='text reports repaint status show picture log trace events content help'
  local options='--piece --limit --format --timing --from --until --encoding --terminal --columns --size --full --partial --quiet -h --help'
  local word=${COMP_WORDS[COMP_CWORD]} before=${COMP_WORDS[COMP_CWORD - 1]} words=
  # Readline cuts --format=raw into three words. Without = in COMP_WORDBREAKS it is one word.
  local start=
  if [[ $before == = ]]; then before=${COMP_WORDS[COMP_CWORD - 2]}; fi
  if [[ $word == = ]]; then word=; fi
  if [[ $word == --*=* ]]; then before=${word%%=*} start=${word%%=*}= word=${word#*=}; fi
  if [ "$COMP_CWORD" -eq 1 ]; then
    words="$commands -h --help -V --version"
  else
    case $before in
      --piece | --limit | --from | --until) COMPREPLY=(); return ;;
      --format) words=$(_vt220_formats) ;;
      --encoding) words='dec utf-8 auto' ;;
      --terminal) words='vt220 xterm auto' ;;
      --columns) words='80 132 auto' ;;
      --size) words='auto' ;;
      help) words=${commands% help} ;;
      *) if [[ $word == -* && $before != --timing ]]; then words=$options; fi ;;
    esac
  fi
  if [ -n "$words" ]; then
    mapfile -t COMPREPLY < <(compgen -P "$start" -W "$words" -- "$word")
  else
    mapfile -t COMPREPLY < <(compgen -P "$start" -f -- "$word")
    compopt -o filenames
  fi
}
complete -F _vt220 vt220

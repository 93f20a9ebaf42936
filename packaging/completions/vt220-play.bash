# Completions of vt220-play for bash.
_vt220_play() {
  local word=${COMP_WORDS[COMP_CWORD]} before=${COMP_WORDS[COMP_CWORD - 1]} words=
  # Readline cuts --terminal=xterm into three words. Without = in COMP_WORDBREAKS it is one word.
  local start=
  if [[ $before == = ]]; then before=${COMP_WORDS[COMP_CWORD - 2]}; fi
  if [[ $word == = ]]; then word=; fi
  if [[ $word == --*=* ]]; then before=${word%%=*} start=${word%%=*}= word=${word#*=}; fi
  case $before in
    --find | --speed | --from | --until | --pause) COMPREPLY=(); return ;;
    --encoding) words='dec utf-8 auto' ;;
    --terminal) words='vt220 xterm auto' ;;
    --size) words=auto ;;
    *) if [[ $word == -* && $before != --timing ]]; then words='--find= --timing= --speed= --from= --until= --pause= --exit --encoding= --terminal= --size= -h --help --version'; fi ;;
  esac
  if [ -n "$words" ]; then
    mapfile -t COMPREPLY < <(compgen -P "$start" -W "$words" -- "$word")
    if [[ ${#COMPREPLY[@]} -eq 1 && ${COMPREPLY[0]} == *= ]]; then compopt -o nospace 2>/dev/null; fi
  else
    mapfile -t COMPREPLY < <(compgen -P "$start" -f -- "$word")
    compopt -o filenames 2>/dev/null
  fi
}
complete -F _vt220_play vt220-play

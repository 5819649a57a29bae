# bash completion for fmp4
_fmp4() {
  local word=${COMP_WORDS[COMP_CWORD]} before=${COMP_WORDS[COMP_CWORD-1]} options='--copy --max-held' option used left=''
  if [ "$COMP_CWORD" = 1 ]; then
    mapfile -t COMPREPLY < <(compgen -W 'split boxes samples fragments check' -- "$word")
    return
  fi
  case $before in *'<' | *'>') compopt -o default; return ;; esac
  case $before in --samples | --bytes | --duration | --copy | --max-held) return ;; esac
  [ "${COMP_WORDS[1]}" = split ] && options="--samples --bytes --duration --index --sync --keyframes $options"
  used=" ${COMP_WORDS[*]:0:COMP_CWORD} "
  used=${used/ --sync / --sync --keyframes } used=${used/ --keyframes / --keyframes --sync }
  for option in $options; do
    [[ $used == *" $option "* ]] || left+=" $option"
  done
  mapfile -t COMPREPLY < <(compgen -W "$left" -- "$word")
}
complete -F _fmp4 fmp4

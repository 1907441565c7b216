# Completion of zy_bench, zview, zdb, zplay, zsuite and zlogs for bash.

_zy_bench() {
  local word=${COMP_WORDS[COMP_CWORD]} before=${COMP_WORDS[COMP_CWORD - 1]} options
  if [[ $COMP_CWORD -eq 1 ]]; then
    mapfile -t COMPREPLY < <(compgen -W 'run asm dis check threads trace debug search find end order help --help --version' -- "$word")
    return
  fi
  case ${COMP_WORDS[1]} in
    run | trace) options='--image --json --help' ;;
    threads) options='--image --help' ;;
    debug) options='--every --ring --help' ;;
    search) options='--image --for --always --from --kill --without --states --threads --canon --help' ;;
    find) options='--image --for --always --help' ;;
    end) options='--image --canon --help' ;;
    order) options='--json --gap --settled --states --canon --furthest --help' ;;
    help) options='run asm dis check threads trace debug search find end order' ;;
    *) options='--help' ;;
  esac
  if [[ $before == --for ]]; then
    options='differs aborted own killed badkey missing duplicate frozen nopage gone committed over stuck deadlock'
  elif [[ $before == --without ]]; then
    options='start begin kill run take finish push'
  fi
  mapfile -t COMPREPLY < <(compgen -W "$options" -- "$word")
  if [[ ${COMP_WORDS[1]} != help && $word != -* && ! $before =~ ^--(for|always|from|without|every|ring|states|threads|gap)$ ]]; then
    mapfile -t -O "${#COMPREPLY[@]}" COMPREPLY < <(compgen -f -- "$word")
  fi
}

_zview() {
  local word=${COMP_WORDS[COMP_CWORD]} before=${COMP_WORDS[COMP_CWORD - 1]}
  if [[ $before == --fold ]]; then
    mapfile -t COMPREPLY < <(compgen -W 'yes no' -- "$word")
  elif [[ $word == -* ]]; then
    mapfile -t COMPREPLY < <(compgen -W '--svg --mermaid --text --image --steps --title --fold --find --help' -- "$word")
  else
    mapfile -t COMPREPLY < <(compgen -f -- "$word")
  fi
}

complete -F _zy_bench -o filenames -o default zy_bench
complete -F _zview -o filenames zview
complete -f -W '--help' zdb
complete -f -W '--help' zlogs
complete -f -W '--port --no-open --help' zplay
complete -f -W '--all --for --always --image --from --kill --without --states --help' zsuite

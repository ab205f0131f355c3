# shellcheck shell=bash
# Completion of bash for ciserver-runner.
_ciserver_runner() {
  local word=${COMP_WORDS[COMP_CWORD]} before=${COMP_WORDS[COMP_CWORD - 1]}
  COMPREPLY=()
  case $before in
    --config | --token-file | --folder)
      compopt -o filenames 2> /dev/null
      mapfile -t COMPREPLY < <(compgen -f -- "$word")
      ;;
    --where) mapfile -t COMPREPLY < <(compgen -W 'shell container' -- "$word") ;;
    --url | --name | --concurrent | --project) ;;
    *) mapfile -t COMPREPLY < <(compgen -W '-h --help --config --url --token-file --name --folder --where --concurrent --project' -- "$word") ;;
  esac
}
complete -F _ciserver_runner ciserver-runner

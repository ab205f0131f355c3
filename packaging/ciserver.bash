# shellcheck shell=bash
# Completion of bash for ciserver: commands, their options, and values that are known.
_ciserver() {
  local word=${COMP_WORDS[COMP_CWORD]} before=${COMP_WORDS[COMP_CWORD - 1]} command='' options=''
  COMPREPLY=()
  if [ "$COMP_CWORD" -gt 1 ]; then command=${COMP_WORDS[1]}; fi
  case $command in
    '')
      options='check explain plan init migrate project-add runner-add runner-pause report prune serve help -h --help -V --version'
      ;;
    help) options='check explain plan init migrate project-add runner-add runner-pause report prune serve help' ;;
    check | explain) options='-h --help' ;;
    plan) options='--ref --tag --source --variable -h --help' ;;
    init | migrate) options='--db -h --help' ;;
    project-add) options='--db --name -h --help' ;;
    runner-add) options='--db --name --project --tags --untagged -h --help' ;;
    runner-pause) options='--db --runner --resume -h --help' ;;
    report) options='--db --kind --pipeline --json -h --help' ;;
    prune) options='--db --before -h --help' ;;
    serve) options='--db --port --requests --stop-on-fault --log -h --help' ;;
  esac
  case $command:$before in
    *:--db)
      compopt -o filenames 2> /dev/null
      mapfile -t COMPREPLY < <(compgen -f -- "$word")
      ;;
    report:--kind) mapfile -t COMPREPLY < <(compgen -W 'queue pipeline runners' -- "$word") ;;
    serve:--log) mapfile -t COMPREPLY < <(compgen -W 'events requests' -- "$word") ;;
    plan:--source) mapfile -t COMPREPLY < <(compgen -W 'push web schedule api trigger' -- "$word") ;;
    *:--name | *:--project | *:--tags | *:--runner | *:--pipeline | *:--before | *:--port | *:--requests | *:--ref | *:--variable) ;;
    *)
      mapfile -t COMPREPLY < <(compgen -W "$options" -- "$word")
      case $command:$word in
        check:-* | explain:-* | plan:-*) ;;
        check:* | explain:* | plan:*)
          compopt -o filenames 2> /dev/null
          mapfile -t -O "${#COMPREPLY[@]}" COMPREPLY < <(compgen -f -- "$word")
          ;;
      esac
      ;;
  esac
}
complete -F _ciserver ciserver

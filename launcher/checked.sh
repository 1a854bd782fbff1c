# The words of a run, checked before the program is compiled for it, and what a mistyped word may have been meant to be.

# What two words differ in, without what both begin with and what both end with.
part_words() {
  typed=$1
  meant=$2
  while [ -n "$typed" ] && [ -n "$meant" ] && [ "${typed%"${typed#?}"}" = "${meant%"${meant#?}"}" ]; do
    typed=${typed#?}
    meant=${meant#?}
  done
  while [ -n "$typed" ] && [ -n "$meant" ] && [ "${typed#"${typed%?}"}" = "${meant#"${meant%?}"}" ]; do
    typed=${typed%?}
    meant=${meant%?}
  done
}

# Whether a word is another one but for a letter, or but for two neighbours that changed places.
is_near() {
  part_words "$1" "$2"
  case ${#typed}${#meant} in
    00 | 01 | 10 | 11) return 0 ;;
    22) [ "${typed#?}${typed%?}" = "$meant" ] ;;
    *) return 1 ;;
  esac
}

# The first of some words that is near to one: near_of WORD OTHER..
near_of() {
  mistyped=$1
  shift
  for other in "$@"; do
    if is_near "$mistyped" "$other"; then
      echo "$other"
      return
    fi
  done
}

similar() {
  [ -z "$1" ] || printf ": a similar one is '%s'" "$1"
}

commands_of_table() {
  while IFS=: read -r kind word _; do
    case $kind in command | mail | log) echo "$word" ;; esac
  done <"$words"
}

options_of_table() {
  while IFS=: read -r kind word _; do
    [ "$kind ${word%% *}" != "option $1" ] || echo "${word#* }"
  done <"$words"
}

# The clauses that may be left out, by the source that is compiled.
clauses_of_source() {
  sed -n 's/^ *Clause::\([A-Za-z]*\) => "\1",$/\1/p' "$top/crates/md_log/src/clause.rt" 2>/dev/null | grep -vx NotADirectory || :
}

# Refuses a word that is no command of the program nor of the launcher. Of one that is near to a command of the program the program itself
# says so, where it is built.
check_command() {
  case $1 in build | install | uninstall | -*) return ;; esac
  ! is_command "$1" || return 0
  # shellcheck disable=SC2046 # commands are one word each
  near=$(near_of "$1" build install uninstall $(commands_of_table))
  case $near in
    build | install | uninstall) ;;
    *) [ -n "$why" ] || return 0 ;;
  esac
  refuse_words "$1: no such file, and no command$(similar "$near")"
}

# Refuses a word that a run doesn't take.
refuse_unexpected() {
  # shellcheck disable=SC2046 # options are one word each
  near=$(near_of "$1" $(options_of_table "$run"))
  refuse_words "unexpected argument '$1' found$(similar "$near")"
}

# Checks that a number is in the range that the table has for a run.
check_count() {
  [ $# -gt 0 ] || refuse_words "the following required arguments were not provided: <N>"
  [ $# -eq 1 ] || refuse_unexpected "$2"
  range=$(sed -n "s/^command:$run:N:\([^:]*\):.*/\1/p" "$words")
  number=${1#+}
  case $number in
    '' | *[!0-9]*) refuse_words "invalid value '$1' for '<N>': it is no number" ;;
  esac
  number=${number#"${number%%[!0]*}"}
  if [ "${#number}" -gt 4 ] || [ "${number:-0}" -lt "${range%%..*}" ] || [ "${number:-0}" -gt "${range##*..}" ]; then
    refuse_words "invalid value '$1' for '<N>': $1 is not in $range"
  fi
}

check_clause() {
  case $1 in '' | -*) refuse_words "a value is required for '--allow <CLAUSE>' but none was supplied" ;; esac
  clauses=$(clauses_of_source)
  [ -n "$clauses" ] || return 0
  for clause in $clauses; do
    [ "$clause" != "$1" ] || return 0
  done
  # shellcheck disable=SC2086 # clauses are one word each
  near=$(near_of "$1" $clauses)
  refuse 64 "$1: not the name of a clause that may be allowed$(similar "$near")"
}

check_call() {
  case $1 in
    deliver | seen | flag | move | copy | expunge | clean) ;;
    '' | -*) refuse_words "a value is required for '--relies <CALL>' but none was supplied" ;;
    *) refuse 64 "$1: not a call of a job: deliver, seen, flag, move, copy, expunge or clean" ;;
  esac
}

check_grade() {
  case $1 in
    lost | misled | owed | custom) ;;
    '' | -*) refuse_words "a value is required for '--least <GRADE>' but none was supplied" ;;
    *) refuse 64 "$1: not a grade: lost, misled, owed or custom" ;;
  esac
}

check_judge() {
  format=
  while [ $# -gt 0 ]; do
    case $1 in
      --lines | --json | --summary)
        [ "$format" != "$1" ] || refuse_words "the argument '$1' cannot be used multiple times"
        [ -z "$format" ] || refuse_words "the argument '$format' cannot be used with '$1'"
        format=$1
        ;;
      --allow)
        check_clause "${2-}"
        shift
        ;;
      --allow=*) check_clause "${1#--allow=}" ;;
      --least)
        check_grade "${2-}"
        shift
        ;;
      --least=*) check_grade "${1#--least=}" ;;
      --relies)
        check_call "${2-}"
        shift
        ;;
      --relies=*) check_call "${1#--relies=}" ;;
      --by)
        case ${2-} in '' | -*) refuse_words "a value is required for '--by <ACTOR>' but none was supplied" ;; esac
        shift
        ;;
      --owed | --by=* | - | --) ;;
      *) refuse_unexpected "$1" ;;
    esac
    shift
  done
}

# Refuses the words that the program would refuse for a run, whose file is none of them: check_run RUN WORD..
check_run() {
  run=$1
  shift
  case $run in
    threads | index) check_count "$@" ;;
    judge) check_judge "$@" ;;
    play) [ "$*" = -- ] || [ $# -eq 0 ] || refuse_unexpected "$1" ;;
    log)
      [ "${1-}" != --states ] || shift
      [ $# -eq 0 ] || refuse_unexpected "$1"
      ;;
  esac
}

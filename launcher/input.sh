# The script or the log that a command reads: that of a file where one ends its words, and else standard input.

check_readable() {
  [ -e "$1" ] || refuse 66 "$1: no such file"
  [ ! -d "$1" ] || refuse 66 "$1: is a folder"
  [ -r "$1" ] || refuse 66 "$1: can't be read"
}

# Sets the last of some words, and the one before it.
find_last() {
  before=
  last=
  for word in "$@"; do
    before=$last
    last=$word
  done
}

# Whether the last of a command's words is a file: one after the number of threads and index, and none that is an option or the value of one.
ends_with_file() {
  find_last "$@"
  case $last in -*) return 1 ;; esac
  case $before in --allow | --least | --relies | --by) return 1 ;; esac
  case $1 in
    play | log | judge) [ $# -gt 1 ] ;;
    threads | index) [ $# -gt 2 ] ;;
    *) return 1 ;;
  esac
}

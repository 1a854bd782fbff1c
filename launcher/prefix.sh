# The folder below which programs are installed.

set_prefix() {
  prefix=
  is_given=
  while [ $# -gt 0 ]; do
    case $1 in
      --prefix)
        [ $# -ge 2 ] || refuse_words "--prefix takes a folder"
        prefix=$2
        shift
        ;;
      --prefix=*) prefix=${1#--prefix=} ;;
      *) refuse_words "unexpected argument: $1" ;;
    esac
    is_given=yes
    shift
  done
  if [ -z "$is_given" ]; then
    [ -n "${HOME-}" ] || refuse_words "HOME is not set, so --prefix DIR has to say where"
    prefix=$HOME/.local
  fi
  [ -n "$prefix" ] || refuse_words "--prefix takes a folder"
  case $prefix in
    *"
"*) refuse_words "the name of a prefix has no line end" ;;
    /*) ;;
    *) prefix=$(pwd)/$prefix ;;
  esac
  resolve_prefix
}

# Spells the prefix as one path without links, so that it is the same one however it is named. Its last folders need not be there.
resolve_prefix() {
  there=$prefix
  missing=
  while [ ! -e "$there" ] && [ ! -L "$there" ]; do
    missing=/${there##*/}$missing
    there=${there%/*}
    there=${there:-/}
  done
  case $missing/ in */../* | */./*) refuse_words "$there$missing has . or .. after a folder that is not there" ;; esac
  [ -d "$there" ] || refuse 73 "$there: is no folder"
  there=$(cd "$there" && pwd -P) || refuse 73 "$there: can't be entered"
  prefix=$(printf '%s' "${there%/}$missing" | sed 's,//*,/,g; s,/$,,')
}

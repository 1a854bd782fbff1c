# The record of what was installed: a line `deolmutt VERSION`, then `folder PATH` for each folder that was made, and `file SUM PATH` for
# each file, with the sum of its bytes.

set_manifest() {
  manifest=$prefix/share/deolmutt/manifest
  command -v sha256sum >/dev/null || refuse 69 "sha256sum, which tells changed files, is not on the path"
  # The names of files are bytes, whatever language is spoken.
  export LC_ALL=C
}

sum_of() {
  sha256sum <"$1" | cut -d ' ' -f 1
}

recorded_folders() {
  sed -n 's/^folder //p' "$1"
}

recorded_files() {
  sed -n 's/^file [0-9a-f]* //p' "$1"
}

# Whether a path leads below the prefix.
is_below_prefix() {
  case $1 in
    */../* | */..) return 1 ;;
    "$prefix"/?*) return 0 ;;
  esac
  return 1
}

# Whether a line is one of a record. Folders that were made for the prefix are the prefix and some above it.
is_record_line() {
  case $1 in
    "file "*) is_below_prefix "/${1#file * /}" ;;
    *) case $prefix/ in "${1#folder }"/*) ;; *) is_below_prefix "${1#folder }" ;; esac ;;
  esac
}

refuse_record() {
  refuse 65 "$1: is no record of an install below ${prefix:-/}"
}

# Refuses what is no record of this prefix, before anything is done by it.
check_record() {
  if [ ! -f "$1" ] || [ ! -r "$1" ]; then refuse 66 "$1: can't be read"; fi
  head -n 1 "$1" | grep -q '^deolmutt ' || refuse_record "$1"
  ! sed 1d "$1" | grep -qvE '^(file [0-9a-f]{64}|folder) /' || refuse_record "$1"
  sed 1d "$1" | while IFS= read -r line; do
    is_record_line "$line" || refuse_record "$1"
  done || exit
}

# Whether a file is there as a record has it.
is_as_recorded() {
  [ -f "$2" ] && [ ! -L "$2" ] && [ -r "$2" ] && grep -qxF -- "file $(sum_of "$2") $2" "$1"
}

# Of these folders those go that are empty now, and before each those in it.
remove_folders() {
  printf '%s\n' "$1" | sort -r | while IFS= read -r path; do
    rmdir "$path" 2>/dev/null || :
  done
}

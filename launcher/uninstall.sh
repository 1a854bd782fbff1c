# Taking back what install has put below a prefix, and nothing else.

remove_file() {
  if [ ! -e "$1" ] && [ ! -L "$1" ]; then
    say "$1: is gone already"
  elif is_as_recorded "$manifest" "$1"; then
    rm -f "$1" || refuse 73 "$1: can't be taken away"
    printf 'removed %s\n' "$1"
  else
    say "$1: was changed since, and is left"
  fi
}

uninstall_program() {
  set_manifest
  [ -e "$manifest" ] || refuse 66 "$manifest: is not there, so nothing is installed below $prefix"
  check_record "$manifest"
  recorded_files "$manifest" | while IFS= read -r path; do remove_file "$path"; done || exit
  made=$(recorded_folders "$manifest")
  rm -f "$manifest" || refuse 73 "$manifest: can't be taken away"
  printf 'removed %s\n' "$manifest"
  remove_folders "$made"
}

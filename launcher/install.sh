# Installing the program, with its manual page and completions: all of it, or nothing.

# The mode of each file, where it is in this tree, and where it goes below the prefix.
files=$parts/files.txt

# Calls a function with the mode, the source and the target of each file.
each_file() {
  while read -r mode from to; do
    "$1" "$mode" "$top/$from" "$prefix/$to"
  done <"$files"
}

# Refuses where a file to install is missing, or where one has its place that no install has put there as it is now.
check_file() {
  if [ ! -f "$2" ] || [ ! -r "$2" ]; then refuse 66 "$2: can't be read"; fi
  if [ -e "$3" ] || [ -L "$3" ]; then
    is_as_recorded "$work/record" "$3" || refuse 73 "$3: is not from an install, or was changed since: nothing is installed"
  fi
}

# Makes a folder with those above it, and records each that was not there.
make_folder() {
  [ ! -d "$1" ] || return 0
  make_folder "$(dirname "$1")"
  mkdir "$1" || refuse 73 "$1: can't be made: nothing is installed"
  printf 'folder %s\n' "$1" >>"$work/folders"
}

# Puts a file beside its place, under a name that nobody looks for.
bring_file() {
  make_folder "$(dirname "$3")"
  { cp "$2" "$3.new.$$" && chmod "$1" "$3.new.$$"; } || refuse 73 "$3: can't be written: nothing is installed"
  printf 'file %s %s\n' "$(sum_of "$3.new.$$")" "$3" >>"$work/files"
}

# Gives a file that was brought its name, and keeps what had it until all are in their places.
place_file() {
  [ ! -e "$3" ] || cp -p "$3" "$3.old.$$" || refuse 73 "$3: can't be kept: nothing is installed"
  printf '%s\n' "$3" >>"$work/placed"
  mv -f "$3.new.$$" "$3" || refuse 73 "$3: can't be written: nothing is installed"
}

take_back_file() {
  if [ -e "$3.old.$$" ]; then
    mv -f "$3.old.$$" "$3"
  elif grep -qxF -- "$3" "$work/placed" && [ ! -e "$3.new.$$" ]; then
    rm -f "$3"
  fi
  rm -f "$3.new.$$"
}

take_all_back() {
  each_file take_back_file
  take_back_file '' '' "$manifest"
  remove_folders "$(recorded_folders "$work/folders")"
}

# What the install has replaced goes, and so does what an earlier one has put here and this one does not bring.
drop_old() {
  recorded_files "$work/record" | while IFS= read -r path; do
    rm -f "$path.old.$$"
    if ! grep -qxF -- "$path" "$work/placed" && is_as_recorded "$work/record" "$path"; then rm -f "$path"; fi
  done
  rm -f "$manifest.old.$$"
}

# Ends the install, or leaves all as it was before where that has not come to its end.
close_install() {
  trap '' HUP INT PIPE TERM
  set +e
  if [ -n "$is_installed" ]; then drop_old; else take_all_back; fi
  close_work
}

open_install() {
  is_installed=
  open_work
  trap close_install EXIT
  for name in record folders files placed; do : >"$work/$name"; done
  [ ! -e "$manifest" ] || { check_record "$manifest" && cp "$manifest" "$work/record"; }
  umask 022
}

# The record of this install: the folders that an earlier one made are still made by an install.
bring_record() {
  make_folder "$(dirname "$manifest")"
  {
    echo "deolmutt $(version_of_words)"
    grep '^folder ' "$work/record" || :
    cat "$work/folders" "$work/files"
  } >"$manifest.new.$$" || refuse 73 "$manifest: can't be written: nothing is installed"
}

install_program() {
  why=$(why_stale)
  [ -z "$why" ] || refuse 70 "nothing is installed, since $why: '$0 build' proves and builds it"
  set_manifest
  open_install
  each_file check_file
  each_file bring_file
  bring_record
  each_file place_file
  place_file '' '' "$manifest"
  is_installed=yes
  sed 's/^/installed /' "$work/placed"
  case :$PATH: in *:"$prefix/bin":*) ;; *) say "$prefix/bin is not on the path" ;; esac
}

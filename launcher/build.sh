# Proving and building the program: crate by crate, each after those that it uses, so that it is known which one is at work.

# Minutes and seconds.
clock() {
  printf '%d:%02d' $(($1 / 60)) $(($1 % 60))
}

# Says what rt said but that all is well, keeps the whole, and refuses.
refuse_unbuilt() {
  sed -e '/: proved$/d' -e '/^checked /d' -e '/^so far: /d' -e '/^by-macro: /d' -e '/^statements /d' "$work/log" >&2
  kept=$crate/out/build.log
  if mkdir -p "$crate/out" && cp "$work/log" "$kept"; then say "all that rt printed is in $kept"; fi
  case $joined in
    # Ended by signal 9: rt itself, or what it had started, whose number it negates.
    137 | 247) refuse 70 "$current was not built: it was killed, most likely since memory ran out; what is proved is kept" ;;
  esac
  refuse 70 "$current was not built: rt ended with status $joined"
}

# Proves one crate and builds it. The program is run once, for its version.
build_crate() {
  current=$1
  crate_number=$((crate_number + 1))
  say "crate $crate_number of $crates, $current"
  case $1 in
    deolmutt) start_rt "$1" /dev/null "$work/log" run -- --version ;;
    *) start_rt "$1" /dev/null "$work/log" lib ;;
  esac
  join_job
  [ "$joined" -eq 0 ] || refuse_unbuilt
}

build_crates() {
  list_crates
  # shellcheck disable=SC2086 # names of crates have no spaces
  crates=$(count_words $made_of)
  crate_number=0
  for crate_name in $made_of; do build_crate "$crate_name"; done
}

# Proves the program with all that it is made of, and builds it, unless its build is up to date.
build_program() {
  if [ -z "$(why_stale)" ]; then
    say "deolmutt is built, and nothing that it is made of has changed since"
    return
  fi
  require_rt
  open_work
  built_by=$(version_of_toolchain)
  began=$(date +%s)
  # What changes while it is proved is newer than this.
  : >"$work/began"
  build_crates
  [ -x "$program" ] || refuse 70 "$program is not there, though rt has not failed"
  printf '%s\n' "$built_by" >"$stamp"
  touch -r "$work/began" "$stamp"
  rm -f "$crate/out/unproved".*
  say "proved and built $crates crates in $(clock $(($(date +%s) - began)))"
}

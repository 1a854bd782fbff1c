# Running scripts and logs while the program has no build that is up to date: by a program that is compiled with no proof, and kept.

# The sum of what the unproved program is made of, and of the toolchain that makes it.
sum_of_sources() {
  list_crates
  set --
  for name in $made_of; do set -- "$@" "$name/src"; done
  {
    version_of_toolchain
    cat "$top/crates.txt"
    (cd "$top/crates" && find "$@" -type f -exec sha256sum {} + | LC_ALL=C sort -k 2)
  } | sha256sum | cut -d ' ' -f 1
}

# Copies the program while it runs: rt takes it away when it has ended. It waits for the log that it was told to judge, and reads on once
# this has come to its end.
copy_when_running() {
  exec 3>"$work/asked"
  found=$(find "$work" -type f -name program -perm -100 | head -n 1)
  if [ -n "$found" ] && cp "$found" "$work/copied"; then mv "$work/copied" "$work/unproved"; fi
}

# Says why there is no program: in a line where rt has one, and else all that rt said.
refuse_uncompiled() {
  reason=$(sed -n 's/^checked: no-answer: //p' "$work/log")
  [ -n "$reason" ] || cat "$work/log" >&2
  refuse 70 "the unproved program was not compiled${reason:+: $reason}; '$0 build' builds deolmutt"
}

# Compiles the program, which rt then runs once, for a log that does not come before the program was copied.
compile_unproved() {
  mkfifo "$work/asked" || refuse 73 "$work/asked: can't be made"
  copy_when_running &
  copier=$!
  export TMPDIR="$work"
  start_rt deolmutt /dev/null /dev/null try -- judge "$work/asked"
  join_job
  # Where nothing was compiled, nobody has asked for the log.
  end_child "$copier"
  copier=
  [ -x "$work/unproved" ] || refuse_uncompiled
}

# Keeps the program for the runs after this one, if the tree can be written and has not changed meanwhile. One that was kept of other
# sources goes.
keep_unproved() {
  [ "$crate/out/unproved.$(sum_of_sources)" = "$kept" ] || return 0
  mkdir -p "$crate/out" 2>/dev/null || return 0
  if ! cp "$work/unproved" "$kept.$$" 2>/dev/null || ! mv -f "$kept.$$" "$kept"; then
    rm -f "$kept.$$"
    return
  fi
  for other in "$crate/out/unproved".*; do
    [ "$other" = "$kept" ] || rm -f "$other"
  done
}

# Runs a program that nothing keeps, and waits for it, so that a signal ends it too.
run_once() {
  exec 4<&0
  "$work/unproved" "$@" <&4 &
  job=$!
  status=0
  wait "$job" || status=$?
  job=
  exit "$status"
}

# Runs a script or a log by a program that is compiled with no proof, once for all runs up to the next change.
run_unproved() {
  require_rt
  kept=$crate/out/unproved.$(sum_of_sources)
  says="this run is not proved yet, since $why: $remedy"
  if [ -n "$file" ]; then exec <"$file"; fi
  if [ -x "$kept" ]; then
    say "$says"
  else
    say "$says. First it is compiled, which takes some minutes"
    open_work
    compile_unproved
    keep_unproved
    [ -x "$kept" ] || run_once "$@"
    close_work
    trap - EXIT HUP INT PIPE TERM
  fi
  exec "$kept" "$@"
}

# Shows help and the version, and runs scripts and logs: run_unbuilt WHY WORD.. Nothing is done with mail.
run_unbuilt() {
  why=$1
  shift
  remedy="'$0 build' proves and builds it"
  show_help "$@"
  case $1 in
    help) print_help ;;
    -V | --version) echo "deolmutt $(version_of_words)" ;;
    -*) refuse_words "unexpected argument '$1' found" ;;
    play | threads | index | log | judge)
      check_run "$@"
      run_unproved "$@"
      ;;
    # To a mail server any status but 75 may be final, and the message goes back to its sender.
    deliver) refuse 75 "$1 can't be run, since $why: $remedy" ;;
    *) refuse 70 "$1 can't be run, since $why: $remedy" ;;
  esac
  exit
}

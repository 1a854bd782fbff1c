# A temporary folder, and children that end when the launcher ends: a job, and what copies the program that the job makes.

work=
job=
copier=

# Seconds between two looks at the job.
pause=1

# Opens the folder. However the launcher ends, the folder goes, and so does a job that still runs.
open_work() {
  work=$(mktemp -d) || refuse 73 "no temporary folder can be made"
  trap close_work EXIT
  trap 'exit 129' HUP
  trap 'exit 130' INT
  trap 'exit 141' PIPE
  trap 'exit 143' TERM
}

end_child() {
  kill -TERM "$1" 2>/dev/null || :
  wait "$1" 2>/dev/null || :
}

close_work() {
  trap '' HUP INT PIPE TERM
  set +e
  for child in $job $copier; do end_child "$child"; done
  rm -rf "$work"
}

# Starts rt in the folder of a crate: start_rt CRATE INPUT OUTPUT WORD.. Its standard error goes to the file log. In a session of its own it
# gets no Ctrl-C, and so one signal alone, the launcher's: a second one keeps it from ending what it has started.
start_rt() {
  folder=$top/crates/$1
  input=$2
  output=$3
  shift 3
  : >"$work/log"
  set -- rt "$@"
  if command -v setsid >/dev/null; then set -- setsid "$@"; fi
  (cd "$folder" && exec "$@") <"$input" >>"$output" 2>>"$work/log" &
  job=$!
}

# Waits for the job, and sets its status. Where it waits for another rt, that is said.
join_job() {
  while kill -0 "$job" 2>/dev/null && ! grep -q '^rt: waiting for another rt' "$work/log"; do sleep "$pause"; done
  sed -n 's/^rt: \(waiting for another rt\) to finish/deolmutt: \1/p' "$work/log" >&2
  joined=0
  wait "$job" || joined=$?
  job=
}

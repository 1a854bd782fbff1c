# What the program is made of, and whether its build is up to date.

# When the build began that made the program, as the file's own time, and which toolchain made it.
stamp=$program.built

made_of=

# Adds a crate to those that the program is made of, after the crates that it uses: the order in which rt proves them.
add_crate() {
  case " $made_of $above " in *" $1 "*) return 0 ;; esac
  above="$above $1"
  for used in $(sed -n "s/^$1\( [^:]*\)\{0,1\}: *//p" "$top/crates.txt"); do
    [ ! -d "$top/crates/$used" ] || add_crate "$used"
  done
  made_of="$made_of $1"
}

list_crates() {
  made_of=
  above=
  add_crate deolmutt
}

count_words() {
  echo $#
}

version_of_toolchain() {
  kit=$(dirname "$(dirname "$(readlink -f "$(command -v rt)")")")
  cat "$kit/KIT-ID" 2>/dev/null || rt version
}

# A file that the program is made of and that is newer than its build, if there is one. A folder is newer where a file of it went. The gate
# leaves a build without a stamp, which goes by its own time.
find_newer() {
  list_crates
  set -- "$top/crates.txt"
  for name in $made_of; do
    for part in src specs proofs; do
      [ ! -d "$top/crates/$name/$part" ] || set -- "$@" "$top/crates/$name/$part"
    done
  done
  [ -f "$stamp" ] || stamp=$program
  find "$@" -newer "$stamp" -print | head -n 1
}

# Why the program has to be built, and nothing where its build is there and up to date. With no rt on the path there is no other
# toolchain that could have made it.
why_stale() {
  if [ ! -x "$program" ]; then
    echo "deolmutt is not built"
    return
  fi
  if [ -f "$stamp" ] && command -v rt >/dev/null && [ "$(version_of_toolchain)" != "$(cat "$stamp")" ]; then
    echo "deolmutt's build is by another toolchain"
    return
  fi
  newer=$(find_newer)
  [ -z "$newer" ] || echo "deolmutt's build is older than ${newer#"$top/"}"
}

require_rt() {
  command -v rt >/dev/null || refuse 69 "rt, the toolchain's command, is not on the path"
}

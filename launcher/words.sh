# The words of the launcher: what it takes of the program's table, its help, and how other words are refused.

words=$parts/words.txt

# Whether a word is a command of the program.
is_command() {
  while IFS=: read -r kind word _; do
    case $kind in command | mail | log | clap) [ "$word" != "$1" ] || return 0 ;; esac
  done <"$words"
  return 1
}

version_of_words() {
  sed -n 's/^version:\([^:]*\):.*/\1/p' "$words"
}

refuse_words() {
  refuse 64 "$*; try '$0 --help'"
}

refuse_more() {
  [ $# -eq 0 ] || refuse_words "unexpected argument: $1"
}

# A row of the help, whose text goes on below itself where the row would be wider than 80 columns.
print_row() (
  set -f
  line=$(printf '  %-26s' "$1")
  for word in $2; do
    if [ $((${#line} + ${#word})) -gt 80 ]; then
      printf '%s\n' "${line% }"
      line='                            '
    fi
    line="$line$word "
  done
  printf '%s\n' "${line% }"
)

# The rows of the help for the commands of a kind, with what the launcher takes after their words: print_commands KIND AFTER.
print_commands() {
  while IFS=: read -r kind word argument _ text; do
    argument=${argument#"[FILE]"}
    [ "$kind" != "$1" ] || print_row "$word${argument:+ $argument}$2" "$text"
  done <"$words"
}

print_help() {
  cat <<END
Usage: ./deolmutt COMMAND [ARGUMENT]...
       ./deolmutt FILE

Mail, in the maildir BOX:
$(print_commands mail '')

KEY is a message's name or its path, or - for keys from standard input. First
'./deolmutt build' has to build the program; from then on './deolmutt --help'
and './deolmutt help COMMAND' have all options. docs/deolmutt.1 is the manual.

Scripts, over a store in memory, in the language of docs/SCRIPT.md, and logs of
directory calls, in that of docs/JUDGE.md:
$(print_commands command ' [FILE]')
$(print_commands log ' [FILE]')

'./deolmutt FILE' is './deolmutt play FILE'. With no FILE the script or the log
is read from standard input. Until the program is built, the first such run
compiles it, unproved, which takes some minutes; the next ones take it from
there, up to the next change of its sources.

Building and installing:
$(
    print_row build 'Proves the program and builds it'
    print_row 'install [--prefix DIR]' 'Installs it, with its manual page and completions for bash, zsh and fish'
    print_row 'uninstall [--prefix DIR]' 'Takes away what install has put there'
  )

DIR is ~/.local by default; '--prefix /usr/local' installs for all users.
A zsh finds its completions if DIR's folder share/zsh/site-functions
is in fpath. What install has put there is recorded, and a file that was
changed since is never touched.

Options:
$(
    print_row '-h, --help' 'Print help'
    print_row '-V, --version' 'Print version'
  )

Status: the program's own, or if the launcher fails, one of sysexits.h:
  64  usage error                       70  the program is not built, or its
  65  a file is not as it must be           unproved run failed
  66  a file can't be read              73  a file or folder can't be made
  69  rt, the toolchain, is missing         or taken away
  129, 130, 143  ended by a signal      74  reading or writing failed
                                        75  as 70, of a delivery
END
}

# Shows the help where a word in front of -- asks for it.
show_help() {
  for word in "$@"; do
    case $word in
      --) return ;;
      -h | --help) print_help && exit ;;
    esac
  done
}

# Where the first word of a script asks for help: prints what the script says of itself, from its second line to `set`, and ends it.

case ${1:-} in
  -h | --help) sed -n '2,/^set /{/^set /d;s/^# \{0,1\}//p}' "$0" && exit ;;
esac

#!/bin/sh
# Runs the tool that this is called after, with the programs that were installed with it.
set -eu
bin=$(dirname "$(readlink -f "$0")")
name=${0##*/deolmutt-}
: "${DEOLMUTT:=$bin/deolmutt}"
DEOLMUTT_TOOL=deolmutt-$name
export DEOLMUTT DEOLMUTT_TOOL
[ "$name" != races ] || set -- --deolmutt "$bin/deolmutt" --cli "$bin/maildir_cli" "$@"
exec python3 "$bin/../share/deolmutt/tools/$name" "$@"

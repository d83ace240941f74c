#!/bin/sh
# Copies a file before a newer program raises its schema: what a unit starts before the program (ExecStartPre). To be run by root.
#
#     before.sh FILE
#
# Where another program has the file open nothing is done, since the program won't open it either. FOUNDED/NAME is made, which tells from
# then on that there was a file: where it is gone the start fails, since the program would make an empty one. Remove FOUNDED/NAME to
# begin anew. Settings are those of apply.sh.
set -eu
: "${SETTINGS:=/etc/uptane/settings}"
# shellcheck source=/dev/null
if [ -r "$SETTINGS" ]; then . "$SETTINGS"; fi
: "${TOOLS:=/usr/lib/uptane_desk/tools}" "${COPIES:=/var/backups/uptane}" "${FOUNDED:=/etc/uptane/founded}"
if [ ! -s "$1" ]; then echo "<2>$1 is gone: restore a copy (OPERATING, To restore)" >&2; exit 1; fi
mkdir -p "$FOUNDED"
: > "$FOUNDED/$(basename "$1")"
exec python3 "$TOOLS/run" raised "$1" "$COPIES"

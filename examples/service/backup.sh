#!/bin/sh
# Copies each desk's file while it is served, has the program open the copy, and makes metrics and the page of the fleet of the newest
# copies. To be run by root.
#
#     backup.sh
#
# A service stands still for some milliseconds while its log is copied, or, where COPIES is on the same filesystem and that can clone (XFS,
# Btrfs), its file too. The program opens the copy as at a start, which takes the time and the memory of one; where that is much, TRY_EACH minutes may
# lie between two tries. One that it refuses is named `-untaken` and doesn't count. Behind a copy that it took, the newest KEEP copies of
# the desk stay, and as many of those that apply.sh made before and behind what it gave; those before a raise of the schema are never
# removed. Then AFTER is run with the names of the new
# copies, where it is there: to bring them to another machine, say. The page is readable by the group of its folder. Settings are read
# from /etc/uptane/settings. The status is 1 where anything failed.
set -eu
umask 077
: "${SETTINGS:=/etc/uptane/settings}"
# shellcheck source=/dev/null
if [ -r "$SETTINGS" ]; then . "$SETTINGS"; fi
: "${PROGRAM:=/usr/bin/uptane_desk}" "${TOOLS:=/usr/lib/uptane_desk/tools}" "${FOLDER:=/var/lib/uptane}" "${COPIES:=/var/backups/uptane}" "${KEEP:=48}" "${DESKS:=}"
: "${TRY_EACH:=0}" "${METRICS:=}" "${PAGE:=}" "${AFTER:=/etc/uptane/after-backup}" "${RUN:=/run}"

# (apply.sh copies, too)
exec 9> "$RUN/uptane-apply.lock"
flock 9

tool() { python3 "$TOOLS/run" "$@"; }
unit_of() { if [ "$1" ]; then echo "uptane-desk@$1.service"; else echo uptane-desk.service; fi; }
failed='' made='' named='' logs='' own=$(mktemp -d)
trap 'rm -rf "$own"' EXIT

# removes the copies of such names but for so many, the newest
older() { find "$COPIES" -maxdepth 1 -name "$1" | sort -r | tail -n "+$(($2 + 1))" | while read -r old; do rm -f "$old" "$old-wal"; done; }

# a copy that counts: its status is 1 where there is none
counts() {
    tool copy_served "$(systemctl show -p MainPID --value "$(unit_of "$1")")" "$FOLDER/desk$1.db" "$copy" || return 1
    if [ "$(find "$COPIES" -maxdepth 1 -name "tried$1" -mmin "-$TRY_EACH")" ]; then return 0; fi
    tool try_copy "$PROGRAM" "$copy" || return 1
    tool check_file "$copy" || { failed=yes; return 0; }
    : > "$COPIES/tried$1"
    for end in '' -before -rotated; do older "desk$1-*Z$end.db" "$KEEP"; done
}

backup() {
    copy="$COPIES/desk$1-$(date -u +%Y%m%dT%H%M%SZ).db"
    older "desk$1-*-untaken.db" 1
    if ! counts "$1"; then
        echo "backup.sh: desk$1: no copy that counts; older ones stay" >&2
        failed=yes
        return 0
    fi
    made="$made $copy" named="$named desk$1=$copy"
    # its log, where that isn't in it
    if [ -e "$copy-wal" ]; then made="$made $copy-wal"; fi
}

# what a desk's service wrote in the last hour, where there is such a log
logged() { if journalctl -q -o cat --since -1h -u "$(unit_of "$1")" > "$own/desk$1.log" 2> /dev/null; then logs="$logs --log desk$1=$own/desk$1.log"; fi; }

each() { for desk in $(if [ "$DESKS" ]; then seq "$DESKS"; else echo alone; fi); do "$@" "${desk#alone}"; done; }
for path in "$METRICS" "$PAGE"; do if [ "$path" ]; then install -d -m 755 "$(dirname "$path")"; fi; done
install -d -m 700 "$COPIES"
each backup
# shellcheck disable=SC2086
if [ "$METRICS" ] && [ ! "$failed" ]; then each logged; tool metrics --to "$METRICS" $named $logs || failed=yes; fi
# shellcheck disable=SC2086
if [ "$PAGE" ] && [ ! "$failed" ]; then
    { tool fleet_page $named > "$PAGE.new" && chgrp "$(stat -c %g "$(dirname "$PAGE")")" "$PAGE.new" && chmod 640 "$PAGE.new" && mv "$PAGE.new" "$PAGE"; } || failed=yes
fi
# shellcheck disable=SC2086
if [ "$made" ] && [ -x "$AFTER" ]; then "$AFTER" $made || failed=yes; fi
[ ! "$failed" ]

#!/bin/sh
# Makes the user, the group of operators and the folders that the units need, where they aren't there. To be run by root, once the files
# of the package are in their places; a package does so by itself.
set -eu
getent passwd uptane > /dev/null || useradd --system --home-dir /var/lib/uptane --shell /usr/sbin/nologin uptane
getent group uptane-operators > /dev/null || groupadd --system uptane-operators
install -d -o uptane -g uptane -m 700 /var/lib/uptane
# operators may drop files there, and see and change nothing of others'
install -d -m 1730 -g uptane-operators /var/spool/uptane
install -d -m 750 -g uptane-operators /var/spool/uptane/answers
install -d -m 700 /var/backups/uptane /var/log/uptane
# and the folders that settings name
: "${SETTINGS:=/etc/uptane/settings}" "${COPIES:=}" "${METRICS:=}" "${PAGE:=}" "${WATCHED:=}" "${DIVISION:=}"
# shellcheck source=/dev/null
if [ -r "$SETTINGS" ]; then . "$SETTINGS"; fi
for folder in "$COPIES" "$DIVISION"; do if [ "$folder" ]; then install -d -m 700 "$folder"; fi; done
for path in "$METRICS" "$PAGE" "$WATCHED"; do if [ "$path" ]; then install -d -m 755 "$(dirname "$path")"; fi; done
systemctl enable uptane-desk.service uptane-desk-refresh.timer uptane-desk-backup.timer uptane-desk-watch.timer uptane-desk-now.path
# (what the timers start does nothing before the founding)
if [ -d /run/systemd/system ]; then
    systemctl daemon-reload
    systemctl start uptane-desk-refresh.timer uptane-desk-backup.timer uptane-desk-watch.timer uptane-desk-now.path
fi

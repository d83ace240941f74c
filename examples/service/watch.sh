#!/bin/sh
# Looks at each desk, its Timestamp and its newest copy, and fails once where something is amiss that wasn't told yet. To be run by root.
#
#     watch.sh
#
# A desk whose file is gone, though there was one (FOUNDED/NAME tells), is lost with the program that still has it. One that doesn't
# answer for LATE seconds is down: a start may take so long. A Timestamp that has less than 9 hours left wasn't refreshed, and a copy that
# is 3 hours old wasn't made. What is amiss is printed each time; the status is 1 where it is another than the last time, and each 6
# hours. With WATCHED, metrics are written there, with what the service says of itself. Settings are read from /etc/uptane/settings.
set -eu
umask 022
: "${SETTINGS:=/etc/uptane/settings}"
# shellcheck source=/dev/null
if [ -r "$SETTINGS" ]; then . "$SETTINGS"; fi
: "${PORT:=8080}" "${FOLDER:=/var/lib/uptane}" "${COPIES:=/var/backups/uptane}" "${DESKS:=}" "${RUN:=/run}"
: "${TOOLS:=/usr/lib/uptane_desk/tools}"
: "${LATE:=180}" "${LEAST_LEFT:=32400}" "${OLDEST:=10800}" "${WATCHED:=}" "${FOUNDED:=/etc/uptane/founded}"

now=$(date +%s) state=$RUN/uptane-watch lines=''
amiss=$state/amiss
mkdir -p "$state"
[ -e "$state/first" ] || echo "$now" > "$state/first"
: > "$amiss"
say() { echo "desk$1: $2" >> "$amiss"; }
metric() { lines="$lines$(printf 'uptane_desk_%s{desk="desk%s"} %s' "$2" "$1" "$3")
"; }

status() {
    told=$(echo '{"do":"status"}' | python3 "$TOOLS/run" tell "$FOLDER/desk$1.socket" || true)
    for name in open served groups commands seconds; do
        value=$(echo "$told" | sed -n "s/.*\"$name\":\([0-9]*\).*/\1/p")
        if [ "$value" ]; then metric "$1" "service_$name" "$value"; fi
    done
}

watch() {
    file=$FOLDER/desk$1.db mark=$FOUNDED/desk$1.db there=0
    process=$(systemctl show -p MainPID --value "uptane-desk${1:+@$1}.service")
    if [ "$(find "/proc/$process/fd" -lname "*/desk$1.db* (deleted)" 2> /dev/null)" ]; then
        say "$1" "its file is gone, and the program still has it: don't stop it (OPERATING, To restore)"
    elif [ -s "$file" ]; then
        there=1
        [ -e "$mark" ] || { mkdir -p "$FOUNDED" && : > "$mark"; }
    elif [ -e "$mark" ]; then
        say "$1" "its file is gone (OPERATING, To restore)"
    else
        return 0
    fi
    metric "$1" file_there "$there"
    expires=$(curl -fsS -m 30 "http://127.0.0.1:$((PORT + ${1:-0}))/image/timestamp.json" 2> /dev/null |
        sed -n 's/.*"expires":"\([0-9TZ:-]*\)".*/\1/p')
    if [ "$expires" ]; then
        left=$(($(date -d "$expires" +%s) - now))
        echo "$now" > "$state/answered$1"
        metric "$1" up 1
        metric "$1" served_timestamp_left_seconds "$left"
        if [ "$WATCHED" ]; then status "$1"; fi
        if [ "$left" -lt "$LEAST_LEFT" ]; then say "$1" "the Timestamp expires $expires: see uptane-desk-refresh"; fi
    else
        [ -e "$state/answered$1" ] || echo "$now" > "$state/answered$1"
        metric "$1" up 0
        if [ $((now - $(cat "$state/answered$1"))) -ge "$LATE" ]; then say "$1" "it doesn't answer: see journalctl -u uptane-desk${1:+@$1}"; fi
    fi
    newest=$(find "$COPIES" -maxdepth 1 -name "desk$1-*Z.db" -printf '%T@\n' | sort -n | tail -n 1)
    if [ "${newest%%.*}" ]; then
        metric "$1" newest_copy_age_seconds "$((now - ${newest%%.*}))"
        if [ $((now - ${newest%%.*})) -gt "$OLDEST" ]; then say "$1" "the newest copy is of $(date -u -d "@${newest%%.*}" +%FT%TZ): see uptane-desk-backup"; fi
    elif [ $((now - $(cat "$state/first"))) -gt "$OLDEST" ]; then
        say "$1" "there is no copy: see uptane-desk-backup"
    fi
}
for desk in $(if [ "$DESKS" ]; then seq "$DESKS"; else echo alone; fi); do watch "${desk#alone}"; done

if [ "$WATCHED" ]; then
    printf '%suptane_desk_watched_timestamp_seconds %s\n' "$lines" "$now" > "$WATCHED.new"
    mv "$WATCHED.new" "$WATCHED"
fi
cat "$amiss" >&2
if [ ! -s "$amiss" ]; then
    if [ -e "$state/told" ]; then echo "all is well again"; fi
    rm -f "$state/told"
    exit 0
fi
cut -d: -f1,2 "$amiss" > "$state/now"
if cmp -s "$state/now" "$state/told" && [ -z "$(find "$state/told" -mmin +360)" ]; then exit 0; fi
mv "$state/now" "$state/told"
exit 1

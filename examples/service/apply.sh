#!/bin/sh
# Gives the scripts that operators dropped, and refreshes the Image repository, while each desk serves. To be run by root.
#
#     apply.sh [--refresh]
#     apply.sh --mend
#
# Scripts are taken from SPOOL, whole files named NAME.script, and checked. Where the checker refuses all, and no refresh is asked for,
# nothing more is done. Else each desk, one after the other, is copied where a script changes anything, and given its lines by its
# operators' socket; where keys were rotated it is copied once more. The program opens each copy, as backup.sh has it do. A desk whose
# file is gone is given nothing. What was answered is in SPOOL/answers, and in the journal with who gave it; what wasn't is in SPOOL/held.
# The status is 0 where all was accepted, and answered without a refusal. `--mend` puts scripts that a killed run left into SPOOL/held; each
# run begins so. Settings are read from /etc/uptane/settings.
set -eu
umask 077
: "${SETTINGS:=/etc/uptane/settings}"
# shellcheck source=/dev/null
if [ -r "$SETTINGS" ]; then . "$SETTINGS"; fi
: "${PROGRAM:=/usr/bin/uptane_desk}" "${TOOLS:=/usr/lib/uptane_desk/tools}" "${PORT:=8080}"
: "${FOLDER:=/var/lib/uptane}" "${SPOOL:=/var/spool/uptane}" "${JOURNAL:=/var/log/uptane/journal}" "${COPIES:=/var/backups/uptane}"
# several desks: their number, and the folder of their division; how long a start may take, in seconds
: "${DESKS:=}" "${DIVISION:=/var/lib/uptane-division}" "${PATIENCE:=600}" "${RUN:=/run}" "${AFTER_APPLY:=/etc/uptane/after-apply}"
: "${AFTER:=/etc/uptane/after-backup}" "${TRY_EACH:=0}"

refresh='' mend=''
case ${1:-} in
--refresh) refresh=yes; shift;;
--mend) mend=yes; shift;;
esac
[ $# = 0 ] || { echo "usage: apply.sh [--refresh | --mend]" >&2; exit 2; }

say() { echo "apply.sh: $*" >&2; }
tool() { python3 "$TOOLS/run" "$@"; }
# a desk is its number, or nothing where there is one alone
file_of() { echo "$FOLDER/desk$1.db"; }
socket_of() { echo "$FOLDER/desk$1.socket"; }
unit_of() { if [ "$1" ]; then echo "uptane-desk@$1.service"; else echo uptane-desk.service; fi; }
script_of() { if [ "$1" ]; then echo "$DIVISION/desk$1.script"; else echo "$work/script"; fi; }
answers_of() { if [ "$1" ]; then echo "$DIVISION/desk$1.answers"; else echo "$work/answers"; fi; }
each() { for desk in $(if [ "$DESKS" ]; then seq "$DESKS"; else echo alone; fi); do "$@" "${desk#alone}"; done; }

asked() { curl -fsS -m 60 --retry "$2" --retry-connrefused --retry-delay 1 --retry-max-time "$2" "http://127.0.0.1:$((PORT + ${1:-0}))$3"; }
# a service that was just started doesn't listen yet
fetched() { asked "$1" "$PATIENCE" /image/timestamp.json; }

highest=0
# the last member of the file's signed part is its version, as canonical text has them in order
above() {
    version=$(fetched "$1" | sed -n 's/.*,"version":\([0-9]*\)}}$/\1/p')
    [ "$version" ] || { say "desk$1: no version"; exit 1; }
    if [ "$version" -gt "$highest" ]; then highest=$version; fi
}

# ---- what a run left that was killed

exec 9> "$RUN/uptane-apply.lock"
# (what was killed may still end; a run that goes on needs no mending)
if [ "$mend" ]; then flock -w 10 9 || exit 0; else flock 9; fi
find "$SPOOL" -maxdepth 1 -type d -name 'taken.*' -uid "$(id -u)" | while read -r left; do
    if [ -e "$left/list.json" ]; then tool spool keep "$SPOOL" "$left" "$JOURNAL" || say "a run was killed: see $SPOOL/held and $JOURNAL"; fi
    rm -rf "$left"
done
if [ "$mend" ]; then exit 0; fi

# ---- scripts are taken

if [ "$DESKS" ] && [ -e "$DIVISION/pending.json" ]; then say "$DIVISION: the last script isn't joined yet"; exit 1; fi
if [ "$refresh" ]; then each above; fi
# who can check a signature of Ed25519 can't make one: ECUs' keys are public then
public=''
if asked "${DESKS:+1}" 0 /director/root.json 2> /dev/null | grep -q '"method":"ed25519"'; then public=--public; fi

work=$(mktemp -d "$SPOOL/taken.XXXXXX") failed='' given='' number=0 reading=''
kept() { given=''; tool spool keep "$SPOOL" "$work" "$JOURNAL" $public || failed=yes; }
ended() {
    if [ "$given" ]; then kept; fi
    rm -rf "$work"
}
trap ended EXIT
trap 'exit 1' HUP INT TERM

given=yes
tool spool take "$SPOOL" "$work" "$JOURNAL" > "$work/number" || failed=yes
number=$(cat "$work/number")
if [ "${number:-0}" = 0 ] && [ ! "$refresh" ]; then given=''; [ ! "$failed" ]; exit; fi
if tool spool reads "$work"; then reading=yes; fi

whole() {
    tool spool whole "$work" ${refresh:+--refresh "$highest"} > "$work/script"
    if [ "$DESKS" ]; then tool divide_script "$DIVISION" --desks "$DESKS" < "$work/script" > "$work/divided"; fi
}
if ! whole; then
    # what can't be divided is put aside, and the refresh goes on
    rm -f "$work/refresh.script"
    kept
    failed=yes number=0
    echo '[]' > "$work/list.json"
    [ "$refresh" ] && whole || exit 1
    given=yes
fi

# ---- and given

pid_of() { systemctl show -p MainPID --value "$(unit_of "$1")"; }
# a file that was removed is the program's until it ends
gone() {
    [ ! -s "$(file_of "$1")" ] || [ "$(find "/proc/$(pid_of "$1")/fd" -lname "*/desk$1.db* (deleted)" 2> /dev/null)" ]
}

copied() {
    copy=$COPIES/desk$1-$(date -u +%Y%m%dT%H%M%SZ)-$2.db
    while [ -e "$copy" ]; do
        sleep 1
        copy=$COPIES/desk$1-$(date -u +%Y%m%dT%H%M%SZ)-$2.db
    done
    tool copy_served "$(pid_of "$1")" "$(file_of "$1")" "$copy" || return 1
    if [ "$(find "$COPIES" -maxdepth 1 -name "tried$1" -mmin "-$TRY_EACH")" ]; then return 0; fi
    tool try_copy "$PROGRAM" "$copy"
}

give() {
    : > "$(answers_of "$1")"
    [ -s "$(script_of "$1")" ] || return 0
    if gone "$1"; then say "desk$1: its file is gone, so nothing is given"; failed=yes; return 0; fi
    if [ "$number" != 0 ] && [ ! "$reading" ] && ! copied "$1" before; then say "desk$1: no copy, so nothing is given"; failed=yes; return 0; fi
    # (one that was just started doesn't listen yet)
    fetched "$1" > "$work/timestamp" || { failed=yes; return 0; }
    tool tell "$(socket_of "$1")" < "$(script_of "$1")" > "$(answers_of "$1")" || failed=yes
    echo "desk$1: $(wc -l < "$(answers_of "$1")") lines answered"
}
install -d -m 700 "$COPIES"
each give

if [ "$DESKS" ]; then
    tool divide_script "$DIVISION" --join > "$work/answers" || failed=yes
    # the proxy's map of vehicles may be another now
    if [ -x "$AFTER_APPLY" ]; then "$AFTER_APPLY" "$DIVISION/vehicles.map" || failed=yes; fi
fi
kept
# the new keys are in no other copy
rotated() { if copied "$1" rotated; then made="$made $(find "$COPIES" -path "$copy*" -printf '%p ')"; else failed=yes; fi; }
made=''
if grep -Eqs '"do" *: *"(found|rotate)"' "$work"/*.script; then each rotated; fi
# shellcheck disable=SC2086
if [ "$made" ] && [ -x "$AFTER" ]; then "$AFTER" $made || failed=yes; fi
[ ! "$failed" ]

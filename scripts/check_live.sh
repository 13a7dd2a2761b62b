#!/usr/bin/env bash
# The checks of the live TNC that need a clock: sessions with a Dire Wolf at the other end of the sound, other people's
# programs as hosts, mail by Winlink's pat, and the commands that docs/OPERATING.md and docs/HOSTS.md show. They are run by hand
# before a release, on a machine that has a processor to spare, and take about eight minutes.
#   scripts/check_live.sh [PROGRAM]      bin/tnc, where no other is named
set -uo pipefail
cd "$(dirname "$0")/.."
tnc=$(realpath "${1:-bin/tnc}")
failed=0

# NAME COMMAND..: runs a command, and says how it went.
check() {
    local began=$SECONDS
    if "${@:2}"; then
        echo "$1: fine, $((SECONDS - began)) s"
    else
        failed=$((failed + 1))
        echo "FAILED: $1"
    fi
}

if command -v direwolf >/dev/null; then
    check "sessions with Dire Wolf" scripts/checks/check_peers.py --tnc "$tnc"
    check "sessions with Dire Wolf at 48,000 samples a second" scripts/checks/check_peers.py --tnc "$tnc" --rate 48000
    check "a call to a station that is a Dire Wolf" scripts/checks/check_call.py --tnc "$tnc" --appserver
    check "a call by a station that is a Dire Wolf" scripts/checks/check_call.py --tnc "$tnc" --appserver --direwolf
else
    echo "skipped: sessions with Dire Wolf (direwolf is not installed)"
fi
check "other people's programs as hosts" scripts/checks/check_hosts.py --programs --tnc "$tnc"
if command -v rigctld >/dev/null; then
    check "a transmitter keyed by rigctld" scripts/checks/check_ptt.py --tnc "$tnc" --long
    check "mail by pat, keyed by rigctld" scripts/checks/check_pat.py --tnc "$tnc" --ptt
    if command -v direwolf >/dev/null; then
        check "sessions with Dire Wolf, keyed by rigctld" scripts/checks/check_peers.py --tnc "$tnc" --ptt
    fi
else
    echo "skipped: a transmitter keyed by rigctld (rigctld is not installed)"
fi
# It says itself where pat is missing or too old.
check "mail by pat" scripts/checks/check_pat.py --tnc "$tnc"
check "the commands of docs/OPERATING.md and docs/HOSTS.md" scripts/checks/check_operating.py "$tnc"
if command -v systemd-analyze >/dev/null; then
    check "the services of systemd" systemd-analyze verify --man=no systemd/tnc.service systemd/rigctld.service
else
    echo "skipped: the service of systemd (systemd-analyze is not installed)"
fi
[ "$failed" = 0 ]

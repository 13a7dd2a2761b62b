#!/usr/bin/env bash
# Proves and builds the program, tells how far that is, and puts the program at bin/tnc. Where a folder is named, it is
# installed there as tnc; where a prefix is named, at DIR/bin/tnc, with the manual page at DIR/share/man/man1/tnc.1 and the
# services of systemd, tnc.service and rigctld.service, in DIR/lib/systemd/system.
#   scripts/build.sh [FOLDER]
#   scripts/build.sh --prefix DIR
set -euo pipefail
cd "$(dirname "$0")/.."
prefix=
case "${1:-}" in
    --prefix)
        [ $# = 2 ] || { echo "build.sh: --prefix wants one folder" >&2; exit 1; }
        prefix=$2 target=$2/bin
        ;;
    -*)
        echo "build.sh: there is no option $1" >&2
        exit 1
        ;;
    *)
        target=${1:-bin}
        ;;
esac
command -v rt >/dev/null || { echo "build.sh: there is no rt: Rattle's kit is wanted" >&2; exit 1; }
scripts/shared/prove_program.py
install -D -m 755 crates/tnc_main/out/tnc_main "$target/tnc"
if [ -n "$prefix" ]; then
    install -D -m 644 man/tnc.1 "$prefix/share/man/man1/tnc.1"
    sed "s|/usr/local/|$(realpath "$prefix")/|" systemd/tnc.service \
        | install -D -m 644 /dev/stdin "$prefix/lib/systemd/system/tnc.service"
    install -D -m 644 systemd/rigctld.service "$prefix/lib/systemd/system/rigctld.service"
fi
echo "$target/tnc"

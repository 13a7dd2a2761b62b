#!/usr/bin/env bash
# Measures the ring: proves and builds ring_bench by rt run, and runs it with 50 million samples, or with those asked for.
#   bench/ring.sh [SAMPLES]
set -euo pipefail
cd "$(dirname "$0")/../crates/ring_bench"
rt run >/dev/null
out/ring_bench "${1:-50000000}"

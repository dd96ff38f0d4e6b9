#!/usr/bin/env bash
# Writes build/libnyimbrak.a, the proved archive that a C host links; with `all`, what the runs of `make test` need beside it.
set -euo pipefail
cd "$(dirname "$0")/.."
. scripts/kept.sh
archives libnyimbrak.a=dock_c
if [ "${1:-}" = all ]; then
    programs nyimbrak probe_setters
    archives libprobe.a=probe libprobe_record.a=probe_record
fi

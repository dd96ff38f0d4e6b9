#!/usr/bin/env bash
# Builds the program if needed, and runs it on standard input.
set -euo pipefail
cd "$(dirname "$0")/.."
. scripts/kept.sh
programs nyimbrak
exec build/nyimbrak

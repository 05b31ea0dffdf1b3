#!/usr/bin/env bash
# Tries the edits that must fail: tools/edits.sh [--jobs N] [--together] [CRATE|FILE.edit ..]. tools/edits.py says how.
set -euo pipefail
cd "$(dirname "$0")/.."
. tools/kit.sh
exec python3 tools/edits.py "$@"

#!/usr/bin/env bash
# Runs the gate from nothing, and prints when each of its steps ended and what its parts cost in processor seconds (tools/times.py).
# It ends with the status of the gate.
cd "$(dirname "$0")/.." || exit 1
exec python3 tools/times.py "$@"

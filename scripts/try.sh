#!/usr/bin/env bash
# Runs the same sources with no proof, for who wants to look first: scripts/try.sh WORDS < DOCUMENT
set -euo pipefail
top=$(cd "$(dirname "${BASH_SOURCE[0]}")/.." && pwd)
echo "nysiad: no proof is made here: this is a look at what ./nysiad does, some two minutes a run" >&2
cd "$top/crates/nysiad"
exec rt try -- "$@"

#!/usr/bin/env bash
# Tells what the gate costs, from one run of all from nothing: processor seconds of each crate's own proof, tests and
# must-fail edits, and then the 40 dearest functions. Takes as long as the gate and the proofs once more.
set -euo pipefail
cd "$(dirname "$0")"
./costs.py
./costs.py --functions

#!/usr/bin/env bash
# Tests the page in headless Chromium, and in it the program's module where that was built, or can be in a minute.
# Where there is no Chromium and none can be installed, it says so and passes.
# usage: web/test.sh [PROGRAM] [FOLDER]    (default: ./nysiad, and no screenshots)
set -euo pipefail
cd "$(dirname "$0")/.."
if ! { command -v chromium && command -v chromedriver; } >/dev/null; then
  (apt-get update && apt-get install -y --no-install-recommends chromium chromium-driver) >/dev/null 2>&1 ||
    { echo "page: not tested, since there is no Chromium and none can be installed"; exit 0; }
fi
web/examples.py "${1:-./nysiad}" >/dev/null
web/build.sh --if-proved
web/test.py ${2:+"$2"}

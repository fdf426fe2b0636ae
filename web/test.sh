#!/usr/bin/env bash
# Builds the site and runs web/test.mjs over it, in Node 18 or later; Debian's Node is installed where there is none. See web/README.md.
set -euo pipefail
root=$(cd "$(dirname "$0")/.." && pwd -P)
. "$root/bindings/common.sh"
installed node nodejs
bash "$root/web/build.sh"
node "$root/web/test.mjs"

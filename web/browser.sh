#!/usr/bin/env bash
# Builds the site and tries it in headless Chromium (web/browser.py); Debian's packages are installed where they are missing.
# Pictures of it are left in target/web-browser. See web/README.md.
set -euo pipefail
root=$(cd "$(dirname "$0")/.." && pwd -P)
. "$root/bindings/common.sh"
installed chromium chromium
installed chromedriver chromium-driver
debian=/usr/bin/python3 # the one that Debian's selenium is for
[ -x $debian ] && $debian -c 'import selenium' 2>/dev/null || install_packages python3-selenium
bash "$root/web/build.sh"
exec $debian "$root/web/browser.py"

#!/usr/bin/env bash
# page_tests.sh [--keep-pictures]: pages of `lorukinde page` in a real browser, headless Chromium, which tells what is shown (tools/page/tests.py).
# Installs what is missing (Debian's packages) and builds the program if need be. Pictures of the page at two widths go to target/page, and with
# --keep-pictures to docs, where README shows them.
set -euo pipefail
root=$(cd "$(dirname "$0")/.." && pwd)
. "$root/tools/need.sh"
need chromium chromium
need chromedriver chromium-driver
need python3 python3
need_packages fonts-dejavu-core
python3 "$root/tools/page/tests.py"
if [ "${1:-}" = --keep-pictures ]; then
    cp "$root/target/page/page.png" "$root/target/page/page-phone.png" "$root/docs/"
fi

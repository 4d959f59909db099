#!/usr/bin/env bash
# Installs by apt-get, where root can, the tools with which examples, draw and the page are tried. What is missing
# afterwards, those who want it tell.
set -euo pipefail
declare -A package=(
    [chromium]=chromium [chromedriver]=chromium-driver [xfig]=xfig [Xvfb]=xvfb [xdotool]=xdotool
    [node]=nodejs [ip]=iproute2 [git]=git [jq]=jq [pnmtopng]=netpbm [fig2dev]=fig2dev [gawk]=gawk [mawk]=mawk [cc]=gcc
)
missing=()
for tool in "${!package[@]}"; do command -v "$tool" > /dev/null || missing+=("${package[$tool]}"); done
for module in tornado selenium; do
    /usr/bin/python3 -c "import $module" 2> /dev/null || missing+=("python3-$module")
done
[ -e /usr/include/stdio.h ] || missing+=(libc6-dev)  # for tools/refuse.c
getent hosts localhost > /dev/null || missing+=(libnss-myhostname)  # a new chroot has no /etc/hosts
[ ${#missing[@]} -gt 0 ] || exit 0
if [ "$(id -u)" != 0 ] || ! command -v apt-get > /dev/null; then
    echo "tools: missing: ${missing[*]}" >&2
    exit 0
fi
echo "tools: installs ${missing[*]}" >&2
log=$(mktemp)
trap 'rm -f "$log"' EXIT
{ apt-get -q update && DEBIAN_FRONTEND=noninteractive apt-get -qy install --no-install-recommends "${missing[@]}"; } \
    > "$log" 2>&1 || tail -n 3 "$log" >&2

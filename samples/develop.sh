#!/usr/bin/env bash
# Proves and builds rawdev, develops samples/scene.dng with it under the settings of samples/screen.toml, and leaves the
# picture as samples/scene.ppm. Where that fails it says why, a picture that was there stays, and the status isn't 0.
set -euo pipefail
cd "$(dirname "$0")/../crates/rawdev"

reply=$(mktemp)
trap 'rm -f "$reply"' EXIT
status=0
echo 'region 0 0 240 160 ppm' |
    rt run -- ../../samples/scene.dng --settings ../../samples/screen.toml >"$reply" || status=$?

# The reply is one line, `image N`, and then the picture; or one line alone, which says why there is none.
if ! head -n 1 "$reply" | grep -q '^image '; then
    cat "$reply" >&2
    exit $((status > 0 ? status : 1))
elif ((status > 0)); then
    echo "rawdev ended with status $status" >&2
    exit "$status"
fi
tail -n +2 "$reply" >../../samples/scene.ppm
echo "The picture is samples/scene.ppm: 240 by 160 pixels, 16 bits a sample."

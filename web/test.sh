#!/bin/sh
# web/test.sh ITS [PICTURES]: web/its_web.wasm against the built program ITS over every example and variation, and then
# web/index.html in a headless Chromium, whose pictures go to the folder PICTURES. Wants node and chromium (apt).
set -eu
web=$(cd "$(dirname "$0")" && pwd)
its=$(realpath "$1")
node=node
# Before version 24 node runs 64-bit memories only where it is told to.
node --experimental-wasm-memory64 -e 0 2>/dev/null && node="node --experimental-wasm-memory64"
$node "$web/test/native.mjs" "$web/its_web.wasm" "$its" "$web/../examples" "$web/../examples/variations" "$web/examples"
if [ "$(wc -c <"$web/its_web.wasm")" -ge 2097152 ]; then
    echo "the module has 2 MiB or more" >&2
    exit 1
fi
$node "$web/test/page.mjs" "$web/index.html" "${CHROMIUM:-chromium}" ${2:+"$2"}

#!/usr/bin/env bash
# Tests the package for JavaScript by node's own runner in two processes, and prints TAP. Arguments are node's. Tests
# that hang fail after 20 minutes. The lines that say why a test failed become comments, which
# `prove` shows.
set -o pipefail
cd "$(dirname "$(readlink -f "$0")")" || exit
node -e 'process.exit(process.getBuiltinModule ? 0 : 1)' 2>/dev/null || {
    echo "1..0 # SKIP no node 20.16 or later"
    exit 0
}
node --test --test-timeout=1200000 --test-reporter=tap "$@" tests/in_*.mjs | awk '
    /^(not )?ok / { failed = /^not/ }
    /^# / { next }
    /^ / { if (failed) print "#" $0; next }
    { print }'

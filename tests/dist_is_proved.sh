#!/usr/bin/env bash
# Compares dist/ byte for byte with what the proofs build.
set -u
source "$(dirname "$(readlink -f "$0")")/tap.sh"
name="dist/ is what the proofs build"
# `prove` reads no other part between a line on standard error and the next line of a test, so progress is kept.
if ! "$top/tools/dist.sh" check >"$work/said" 2>&1; then
    fail "$name" "$work/said"
elif why=$(grep "^only hashes" "$work/said"); then
    skip "$name" "$why"
else
    pass "$name"
fi
finish

#!/usr/bin/env bash
# Prints the processor that a build for this machine is for: aarch64 on such a machine; x86-64-v4 or
# x86-64-v3 if /proc/cpuinfo, or the file that is named, lists all that this level requires beyond
# x86-64-v2 (such as AVX-512 and AVX2); otherwise x86-64-v2.
set -eu
if [ "$(uname -m)" = aarch64 ]; then
    echo aarch64
    exit
fi
info=${1:-/proc/cpuinfo}
processor_has_flags() { for flag; do grep -qsw "$flag" "$info" || return; done; }
cpu=x86-64-v2
! processor_has_flags avx avx2 bmi1 bmi2 f16c fma abm movbe xsave || cpu=x86-64-v3
[ $cpu = x86-64-v2 ] || ! processor_has_flags avx512f avx512bw avx512cd avx512dq avx512vl || cpu=x86-64-v4
echo "$cpu"

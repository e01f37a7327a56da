#!/usr/bin/env bash
# Tests the crates for Rust, at the top of the repository and in rust-digest/, by cargo:
#
#   rust/run_tests.sh
#
# VULFSJOR_TEST_HUGE=1 adds the tests that hash more than 4 GiB, those of the optimized crate and of
# the builds for x86-64-v2 and v3, clippy, the pages of cargo doc and the examples in them, and builds that take long.
# Nothing comes from the network: rust-digest and the example for rayon use Debian's packages
# librust-digest-dev, librust-hmac-dev, librust-hkdf-dev, librust-pbkdf2-dev, librust-rayon-dev,
# librust-serde-dev, librust-serde-json-dev and librust-bincode-dev.
# A test whose tool is missing is skipped, and a line says so.
set -u
source "$(dirname "$(readlink -f "$0")")/../tests/tap.sh"
export CARGO_TARGET_DIR=$work/target CARGO_NET_OFFLINE=true
# Without what only later builds or a debugger would use, and in one unit: two thirds of the time that several take.
export CARGO_INCREMENTAL=0 CARGO_PROFILE_DEV_DEBUG=0 CARGO_PROFILE_DEV_CODEGEN_UNITS=1
short=(--lib --test bindings --test conformance)
# On processors that are emulated, and of builds that this one would not choose, a part of the conformance cases.
some_cases=$([ -n "${VULFSJOR_TEST_HUGE-}" ] || echo VULFSJOR_SHARE=6)

cargo_in_repository() { in_time cargo "$1" --manifest-path "$top/Cargo.toml" "${@:2}"; }

# A crate of another folder with Debian's crates, from a copy, since cargo writes a lock file there.
debian=/usr/share/cargo/registry
cargo_with_debian_crates() {
    if ! [ -e "$work/copy" ]; then
        mkdir "$work/copy" &&
            cp -r "$top"/{Cargo.toml,rust,rust-digest,dist,tests,tools} "$work/copy/"
    fi
    in_time cargo "$2" --manifest-path "$work/copy/$1/Cargo.toml" \
        --config 'source.crates-io.replace-with="debian"' \
        --config "source.debian.directory=\"$debian\"" "${@:3}"
}

# Checks NAME by COMMAND if Debian has installed these crates: NAME CRATE=VERSION.. -- COMMAND..
check_with_debian_crates() {
    local name=$1 absent= crate
    while shift && [ "$1" != -- ]; do
        crate=${1%=*}
        ls -d "$debian/$crate-${1#*=}".* >/dev/null 2>&1 || absent+=" librust-${crate//_/-}-dev"
    done
    if [ -n "$absent" ]; then skip "$name" "not installed:$absent"; else "${checking-check}" "$name" "${@:2}"; fi
}
check_huge_with_debian_crates() { checking=check_huge check_with_debian_crates "$@"; }

# Whether rustc refuses the lines of the programs in a folder that end with the comment "refused", and no other lines.
# A build finds the crates that other tests have built, which a check would compile once more.
marked_rust_lines_are_refused() {
    local program name
    for program in "$top/$1"/src/bin/*.rs; do
        name=$(basename "$program" .rs)
        ! cargo_with_debian_crates "$1" build -q --bin "$name" --message-format short 2>"$work/said" &&
            diff <(sed -n "s/^src.*$name.rs:\([0-9]*\):.* error.*/\1/p" "$work/said" | sort -un) \
                <(grep -n '// refused$' "$program" | cut -d: -f1) || return
    done
}

# The wrong uses of tests/misuse, with the crate as the tests before have built it: cargo puts the one of these features
# there, of several that it has built.
misuses_are_detected() {
    cargo_in_repository build -q --lib && python3 "$top/tests/misuse/run.py" rust rustc --edition=2021 \
        --extern "vulfsjor=$CARGO_TARGET_DIR/debug/libvulfsjor.rlib" --
}

# The digests of a build that this processor would not choose by itself.
cargo_test_for_build() {
    local tests=(--test conformance)
    [ -z "${VULFSJOR_TEST_HUGE-}" ] || tests=("${short[@]}")
    export RUSTFLAGS="--cfg vulfsjor_build=\"$1\"" CARGO_TARGET_DIR=$work/$1 $some_cases
    cargo_in_repository test "${tests[@]}"
}

# Says what the next test needs, which cargo_for_other_processor then makes for a processor that is emulated:
# TARGET COMPILER EMULATOR.
needs_cross_compiler() {
    needs "$2" "$3"
    [ -n "$missing" ] || ls "$(rustc --print sysroot)/lib/rustlib/$1/lib" >/dev/null 2>&1 ||
        missing="no standard library of Rust for $1"
    [ -n "$missing" ] || has_compiler "$2" || missing="no C library for $1"
    cross=("$@")
}
cargo_for_other_processor() {
    local variable=${cross[0]//-/_}
    variable=CARGO_TARGET_${variable^^}
    export "${variable}_LINKER=${cross[1]}" "${variable}_RUNNER=${cross[2]} -L /usr/${cross[1]%-gcc}" $some_cases
    cargo_in_repository test --target "${cross[0]}" "$@"
}

# The roots of files by rayon's threads, compared with hashlib.
rayon_example_matches_hashlib() {
    head -c 5000003 /dev/urandom >"$work/long" && head -c 1048576 /dev/urandom >"$work/whole" &&
        : >"$work/none" && cargo_with_debian_crates rust/examples/rayon build -q && cd "$work" &&
        ! "$CARGO_TARGET_DIR/debug/rayon-example" long whole absent none >said 2>said_of_errors &&
        roots_by_hashlib 65536 long whole none | diff said - &&
        grep -q ^absent: said_of_errors
}

# What a program for the crate blake2 prints if it gets rust-digest under that name.
crate_works_under_name_blake2() {
    cd "$top" && cargo_with_debian_crates rust-digest/tests/renamed run -q >"$work/printed" && python3 -c '
from hashlib import blake2b, blake2s
ten = blake2b(b"my input", digest_size=10)
salted = blake2b(b"my input", digest_size=10, key=b"key", salt=b"salt", person=b"persona")
for hash in (blake2b(b"hello world"), blake2s(b"hello world"), ten, blake2s(blake2s(b"abc").digest()), ten,
             blake2b(b"my input", key=b"key"), salted, blake2s(open("Cargo.toml", "rb").read())):
    print(hash.hexdigest())' | diff - "$work/printed"
}

# The tests that the crate digest makes by its macros, of which none passes if the digests in their cases are wrong.
# There is no BLAKE2 but ours.
digest_crate_macro_tests_pass() {
    local macros=rust-digest/tests/macros
    cargo_with_debian_crates $macros generate-lockfile && ! grep -E 'name = "blake' "$work/copy/$macros/Cargo.lock" &&
        "$top/$macros/write_data.py" "$work/copy/$macros" && cargo_with_debian_crates $macros test >"$work/said" &&
        grep 'result: ok. 23 passed; 0 failed' "$work/said" &&
        "$top/$macros/write_data.py" "$work/copy/$macros" wrong &&
        ! cargo_with_debian_crates $macros test >"$work/said" &&
        grep 'result: FAILED. 0 passed; 23 failed' "$work/said"
}

for tool in cargo cc python3; do
    has $tool || { skip "the crates for Rust" "no $tool"; finish; }
done
check "the crate vulfsjor" cargo_in_repository test --tests || finish
check_huge "the examples in the documentation of vulfsjor" cargo_in_repository test --doc
check_huge "the crate vulfsjor in a shared library of Rust" cargo_in_repository test --test programs -- --ignored \
    shared_library
check_huge "the crate vulfsjor, optimized" cargo_in_repository test --release "${short[@]}"
check "wrong uses do not compile" marked_rust_lines_are_refused rust/tests/wrong_uses
check "wrong uses in Rust" misuses_are_detected
check "the crate vulfsjor without std" cargo_in_repository test --no-default-features --lib # the other files need std
# Optimizing takes longer than the few tests without VULFSJOR_TEST_HUGE save by it.
CARGO_PROFILE_DEV_OPT_LEVEL=$([ -n "${VULFSJOR_TEST_HUGE-}" ] && echo 1 || echo 0) \
    check "the crate vulfsjor in portable Rust" cargo_test_for_build portable
check_huge "all tests of the crate vulfsjor without std" cargo_in_repository test --no-default-features
if [ "$(uname -m)" = x86_64 ]; then
    check_huge "the crate vulfsjor over the build for x86-64-v2" cargo_test_for_build v2
    if [ "$("$top/tests/processor.sh")" = x86-64-v4 ]; then
        check_huge "the crate vulfsjor over the build for x86-64-v3" cargo_test_for_build v3
    else
        skip "the crate vulfsjor over the build for x86-64-v3" "the choice is that build, or none"
    fi
    needs qemu-x86_64
    check "the crate vulfsjor on other processors" cargo_in_repository test --test programs -- --ignored \
        other_processors
fi
needs_cross_compiler aarch64-unknown-linux-gnu aarch64-linux-gnu-gcc qemu-aarch64
check "the crate vulfsjor on 64-bit ARM" cargo_for_other_processor $([ -n "${VULFSJOR_TEST_HUGE-}" ] &&
    echo --lib --test bindings) \
    --test conformance
needs_cross_compiler s390x-unknown-linux-gnu s390x-linux-gnu-gcc qemu-s390x
check "the crate vulfsjor in portable Rust on s390x" cargo_for_other_processor --test conformance
needs valgrind
check_huge "a comparison takes equal time" cargo_in_repository test --test programs -- --ignored equal_time
needs cargo-clippy
check_huge "clippy has nothing to say" cargo_in_repository clippy --all-targets -- -D warnings -D \
    clippy::must_use_candidate
needs
check_huge "each call with more than 4 GiB" cargo_in_repository test --test trees -- --ignored
check_huge "the pages of cargo doc have no broken link" env RUSTDOCFLAGS="-D warnings" \
    cargo doc --no-deps --manifest-path "$top/Cargo.toml"
digest=(digest=0.10 serde=1 hmac=0.12 hkdf=0.12 pbkdf2=0.11)
check_with_debian_crates "the crate vulfsjor-digest" "${digest[@]}" -- cargo_with_debian_crates rust-digest test \
    --tests --features serde
check_with_debian_crates "wrong uses of vulfsjor-digest do not compile" digest=0.10 serde=1 -- \
    marked_rust_lines_are_refused rust-digest/tests/wrong_uses
check_huge_with_debian_crates "the examples in the documentation of vulfsjor-digest" "${digest[@]}" -- \
    cargo_with_debian_crates rust-digest test --doc
check_huge_with_debian_crates "vulfsjor-digest without std" "${digest[@]}" -- cargo_with_debian_crates rust-digest \
    check --no-default-features
serde=("${digest[@]}" serde_derive=1 serde_json=1 bincode=1)
check_with_debian_crates "vulfsjor-digest under the name blake2" "${serde[@]}" -- crate_works_under_name_blake2
check_huge_with_debian_crates "the tests of digest's macros" "${digest[@]}" blobby=0.3 -- digest_crate_macro_tests_pass
check_huge_with_debian_crates "digests by serde" "${serde[@]}" -- cargo_with_debian_crates rust-digest/tests/renamed \
    test
check_huge_with_debian_crates "the program rust/examples/rayon" rayon=1 -- rayon_example_matches_hashlib
finish

#!/usr/bin/env bash
# rust-argon2's own tests, with the crate for Rust in the place of blake2b_simd by the table of rust/README.md.
source "$(dirname "$(readlink -f "$0")")/common.sh"
registry=/usr/share/cargo/registry
theirs=$registry/rust-argon2-1.0.0 copy=$work/rust-argon2
# With assertions there are none of the 44 tests that fill much memory, and take minutes.
export CARGO_TARGET_DIR=$work/target CARGO_NET_OFFLINE=true CARGO_INCREMENTAL=0 CARGO_PROFILE_DEV_DEBUG=0 \
    CARGO_PROFILE_DEV_OPT_LEVEL=2 CARGO_PROFILE_DEV_DEBUG_ASSERTIONS=true

# A copy, of which four lines are others, compiled without another BLAKE2.
patch_and_compile_copy() {
    cp -r "$theirs" "$copy" && cd "$copy" &&
        sed -i "/^\[dependencies.blake2b_simd\]/,+1c [dependencies.vulfsjor]\npath = \"$top\"" Cargo.toml &&
        sed -i -e 's/^use blake2b_simd::/use vulfsjor::/' \
            -e 's/\.hash_length(out.len()).to_state()/.output_size(out.len()).blake2b().unwrap()/' src/core.rs &&
        [ "$(diff -r "$theirs" . | grep -c '^>')" -eq 4 ] && cargo_test_of_argon2 --no-run && ! grep blake2 Cargo.lock
}
cargo_test_of_argon2() {
    cargo test --manifest-path "$copy/Cargo.toml" --config 'source.crates-io.replace-with="debian"' \
        --config "source.debian.directory=\"$registry\"" "$@"
}

# The tests of the interface with a planted byte: 12 fail, which have a hash, and none of the others.
planted_byte_fails_hash_tests() {
    local programs=("$CARGO_TARGET_DIR"/debug/deps/integration_test-????????????????)
    copy_with_wrong_iv_bit "${programs[0]}" "$work/planted" && ! "$work/planted" >"$work/said" 2>&1 &&
        grep -F 'test result: FAILED. 9 passed; 12 failed;' "$work/said" &&
        [ "$(grep -cE '^test test_argon2(d|i|id)_version1[03]_[45] \.\.\. FAILED$' "$work/said")" -eq 12 ]
}

test_argon2() {
    needs cargo
    [ -d "$theirs" ] || missing="no librust-rust-argon2-dev"
    ls -d $registry/hex-0.4.* >/dev/null 2>&1 || missing="no librust-hex-dev"
    check "rust-argon2" patch_and_compile_copy
    check "rust-argon2's tests of units" command_prints_line_times 1 'test result: ok\. 54 passed; 0 failed;.*' \
        cargo_test_of_argon2 --lib
    check "rust-argon2's tests of its interface" command_prints_line_times 1 \
        'test result: ok\. 21 passed; 0 failed;.*' \
        cargo_test_of_argon2 --test integration_test
    check "rust-argon2's examples" command_prints_line_times 1 'test result: ok\. 12 passed; 0 failed;.*' \
        cargo_test_of_argon2 --doc
    check "rust-argon2's tests of its interface with a planted byte" planted_byte_fails_hash_tests
}

run_part_of_tests test_argon2

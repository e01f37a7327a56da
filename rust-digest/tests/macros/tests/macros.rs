//! What the macros of the crate `digest` test of the crate `blake2`.
use blake2::digest::consts::{U20, U32, U64};
use blake2::digest::core_api::{CoreWrapper, RtVariableCoreWrapper};
use blake2::*;
use digest::dev::{fixed_reset_test, fixed_test, variable_reset_test, variable_test};
use digest::{new_mac_test, new_resettable_mac_test, new_test};
use hmac::SimpleHmac;

type BCore<N> = CoreWrapper<Blake2bCore<N>>;
type BCoreVar = RtVariableCoreWrapper<Blake2bVarCore>;
type SCore<N> = CoreWrapper<Blake2sCore<N>>;
type SCoreVar = RtVariableCoreWrapper<Blake2sVarCore>;

new_test!(b_fixed, "b64", Blake2b512, fixed_test);
new_test!(b_fixed_reset, "b64", Blake2b512, fixed_reset_test);
new_test!(b_fixed_20, "b20", Blake2b<U20>, fixed_reset_test);
new_test!(s_fixed, "s32", Blake2s256, fixed_test);
new_test!(s_fixed_reset, "s32", Blake2s256, fixed_reset_test);
new_test!(s_fixed_20, "s20", Blake2s<U20>, fixed_reset_test);
new_test!(b_variable, "b_all", Blake2bVar, variable_test);
new_test!(b_variable_reset, "b_all", Blake2bVar, variable_reset_test);
new_test!(s_variable, "s_all", Blake2sVar, variable_test);
new_test!(s_variable_reset, "s_all", Blake2sVar, variable_reset_test);
new_test!(b_core, "b64", BCore<U64>, fixed_reset_test);
new_test!(b_core_20, "b20", BCore<U20>, fixed_reset_test);
new_test!(s_core, "s32", SCore<U32>, fixed_reset_test);
new_test!(b_core_variable, "b_all", BCoreVar, variable_reset_test);
new_test!(s_core_variable, "s_all", SCoreVar, variable_reset_test);
new_mac_test!(b_mac, "b_mac", Blake2bMac512);
new_resettable_mac_test!(b_mac_reset, "b_mac", Blake2bMac512);
new_mac_test!(s_mac, "s_mac", Blake2sMac256);
new_resettable_mac_test!(s_mac_reset, "s_mac", Blake2sMac256);
new_mac_test!(b_mac_left, "b_left", Blake2bMac512, trunc_left);
new_mac_test!(b_mac_right, "b_right", Blake2bMac512, trunc_right);
new_mac_test!(b_hmac, "b_hmac", SimpleHmac<Blake2b512>);
new_resettable_mac_test!(s_hmac_reset, "s_hmac", SimpleHmac<Blake2s256>);

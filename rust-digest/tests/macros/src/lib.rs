//! Only the tests of this crate have code.

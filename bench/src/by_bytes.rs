//! The reference as the tests have it: its blank test goes byte by byte.

// The tests use the rest of it.
#[allow(dead_code)]
#[path = "../../bindings/rust/tests/store/reference.rs"]
pub mod reference;

#[path = "../../bindings/rust/tests/store/account.rs"]
pub mod account;

pub fn all_255(bytes: &[u8]) -> bool {
    bytes.iter().all(|&byte| byte == 0xFF)
}

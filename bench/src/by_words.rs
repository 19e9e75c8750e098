//! The same reference, but for its blank test, which goes by words of eight bytes.

#[allow(dead_code)]
#[path = "../../bindings/rust/tests/store/reference.rs"]
pub mod reference;

#[path = "../../bindings/rust/tests/store/account.rs"]
pub mod account;

#[allow(dead_code)]
#[path = "../../bindings/rust/tests/store/flash_plain.rs"]
mod flash_plain;

#[allow(dead_code)]
#[path = "../../bindings/rust/tests/store/mounted_plain.rs"]
pub mod mounted_plain;

#[path = "../../bindings/rust/tests/store/moving_plain.rs"]
pub mod moving_plain;

#[path = "../../bindings/rust/tests/store/salvage_plain.rs"]
pub mod salvage_plain;

#[path = "../../bindings/rust/tests/store/settings_plain.rs"]
pub mod settings_plain;

#[path = "../../bindings/rust/tests/store/shares_plain.rs"]
pub mod shares_plain;

pub fn all_255(bytes: &[u8]) -> bool {
    let (words, rest) = bytes.as_chunks();
    words
        .iter()
        .all(|&word| u64::from_ne_bytes(word) == u64::MAX)
        && rest.iter().all(|&byte| byte == 0xFF)
}

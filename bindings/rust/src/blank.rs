use crate::sys;

/// What the blank test tells of some bytes.
#[derive(Clone, Copy, Debug, PartialEq, Eq, Hash)]
pub struct BlankTest {
    /// Whether every byte is 255, as an erase leaves it.
    pub blank: bool,
    /// How many groups of eight bytes, from the first byte on, were looked at: all of them, a
    /// shorter last one counted, or those up to the first that differs.
    pub groups: u64,
}

/// The store's test for bytes that an erase has left, eight at a time. It stops after the first
/// group that has a byte other than 255.
///
#[cfg_attr(qbx_lib, doc = "```")]
#[cfg_attr(not(qbx_lib), doc = "```no_run")]
/// use qanbillox::{blank_test, BlankTest};
///
/// let mut bytes = [0xFF; 20];
/// assert_eq!(blank_test(&bytes), BlankTest { blank: true, groups: 3 });
///
/// bytes[8] = 0x7F;
/// assert_eq!(blank_test(&bytes), BlankTest { blank: false, groups: 2 });
/// ```
pub fn blank_test(bytes: &[u8]) -> BlankTest {
    // SAFETY: pointer and length are those of a slice that is borrowed for the call.
    let packed = unsafe { sys::qbx_is_blank(bytes.as_ptr(), bytes.len()) };
    BlankTest {
        blank: packed & 0xFF == 1,
        groups: packed >> 8,
    }
}

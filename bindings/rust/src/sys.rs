//! The exports of the static library, as they are.
//!
//! A slice crosses as a pointer and then a length. None of the functions asks anything of its
//! arguments but what a slice asks: the pointer is valid for that many bytes (or entries of 32 bits,
//! and aligned), and nobody else writes them during the call.

extern "C" {
    /// Answer + 256 × steps done.
    pub fn qbx_format(
        image: *mut u8,
        image_len: usize,
        segments: usize,
        slots: usize,
        budget: u64,
    ) -> u64;

    /// Answer + 256 × steps done.
    pub fn qbx_put(
        image: *mut u8,
        image_len: usize,
        segments: usize,
        slots: usize,
        block: u16,
        contents: *const u8,
        contents_len: usize,
        budget: u64,
    ) -> u64;

    /// Answer + 256 × steps done.
    pub fn qbx_delete(
        image: *mut u8,
        image_len: usize,
        segments: usize,
        slots: usize,
        block: u16,
        budget: u64,
    ) -> u64;

    /// Answer + 256 × steps done.
    pub fn qbx_recover(
        image: *mut u8,
        image_len: usize,
        segments: usize,
        slots: usize,
        budget: u64,
    ) -> u64;

    /// Answer + 256 × length + 65,536 × offset.
    pub fn qbx_read(
        image: *const u8,
        image_len: usize,
        segments: usize,
        slots: usize,
        block: u16,
    ) -> u64;

    /// The answer.
    pub fn qbx_mount(
        image: *const u8,
        image_len: usize,
        segments: usize,
        slots: usize,
        table: *mut u32,
        table_len: usize,
    ) -> u64;

    /// Answer + 256 × steps done.
    pub fn qbx_mounted_put(
        image: *mut u8,
        image_len: usize,
        segments: usize,
        slots: usize,
        table: *mut u32,
        table_len: usize,
        block: u16,
        contents: *const u8,
        contents_len: usize,
        budget: u64,
    ) -> u64;

    /// Answer + 256 × steps done.
    pub fn qbx_mounted_delete(
        image: *mut u8,
        image_len: usize,
        segments: usize,
        slots: usize,
        table: *mut u32,
        table_len: usize,
        block: u16,
        budget: u64,
    ) -> u64;

    /// Answer + 256 × length + 65,536 × offset.
    pub fn qbx_mounted_read(
        image: *const u8,
        image_len: usize,
        segments: usize,
        slots: usize,
        table: *const u32,
        table_len: usize,
        block: u16,
    ) -> u64;

    /// Answer + 256 × steps done.
    pub fn qbx_move(
        source: *const u8,
        source_len: usize,
        segments: usize,
        slots: usize,
        target: *mut u8,
        target_len: usize,
        target_segments: usize,
        target_slots: usize,
        budget: u64,
    ) -> u64;

    /// Answer + 256 × length of the text.
    pub fn qbx_account(
        image: *const u8,
        image_len: usize,
        segments: usize,
        slots: usize,
        text: *mut u8,
        text_len: usize,
    ) -> u64;

    /// Answer + 256 × length of the text.
    pub fn qbx_salvage(
        image: *const u8,
        image_len: usize,
        segments: usize,
        slots: usize,
        text: *mut u8,
        text_len: usize,
    ) -> u64;

    /// Answer + 256 × steps done.
    pub fn qbx_rebuild(
        source: *const u8,
        source_len: usize,
        segments: usize,
        slots: usize,
        target: *mut u8,
        target_len: usize,
        target_segments: usize,
        target_slots: usize,
        budget: u64,
    ) -> u64;

    /// The answer.
    pub fn qbx_share_put(
        image: *mut u8,
        image_len: usize,
        segments: usize,
        slots: usize,
        shares: *const u32,
        shares_len: usize,
        tenant: u32,
        block: u16,
        contents: *const u8,
        contents_len: usize,
    ) -> u64;

    /// The answer.
    pub fn qbx_share_delete(
        image: *mut u8,
        image_len: usize,
        segments: usize,
        slots: usize,
        shares: *const u32,
        shares_len: usize,
        tenant: u32,
        block: u16,
    ) -> u64;

    /// Answer + 256 × length of the contents.
    pub fn qbx_share_read(
        image: *const u8,
        image_len: usize,
        segments: usize,
        slots: usize,
        shares: *const u32,
        shares_len: usize,
        tenant: u32,
        block: u16,
        contents: *mut u8,
        contents_len: usize,
    ) -> u64;

    /// Answer + 256 × length + 65,536 × offset.
    pub fn qbx_settings_read(
        image: *const u8,
        image_len: usize,
        partitions: usize,
        layout: *const u8,
        layout_len: usize,
        item: u8,
    ) -> u64;

    /// Answer + 256 × steps done.
    pub fn qbx_settings_write(
        image: *mut u8,
        image_len: usize,
        partitions: usize,
        layout: *const u8,
        layout_len: usize,
        item: u8,
        data: *const u8,
        data_len: usize,
        budget: u64,
    ) -> u64;

    /// 1 if every byte is 255, otherwise 0; + 256 × groups of eight looked at.
    pub fn qbx_is_blank(bytes: *const u8, bytes_len: usize) -> u64;
}

//! Pages made up directly, without steps. The tests and the bench both include this file.

use crate::reference::{Geometry, Version, OPENED, PAGE, TOTAL};

/// A header page of version 2 that fits the table, with any status: the total is 0, every bit left.
pub fn write_header(image: &mut [u8], g: Geometry, number: u32, status: u8) {
    write_header_of(Version::Two, image, g, number, status);
}

/// One of either version.
pub fn write_header_of(version: Version, image: &mut [u8], g: Geometry, number: u32, status: u8) {
    let index = g.index(number);
    let page = &mut image[g.page(index, 0)..][..PAGE];
    page.fill(0xFF);
    page[0..3].copy_from_slice(b"SLT");
    page[3..5].copy_from_slice(&version.bytes());
    page[5] = status;
    page[6] = g.b as u8;
    page[7] = g.n as u8;
    page[8..12].copy_from_slice(&number.to_le_bytes());
    page[12..16].copy_from_slice(&(!number).to_le_bytes());
    if status != OPENED {
        page[16] = ((index + 1) % g.n) as u8;
    }
    if version == Version::Two {
        page[TOTAL].fill(0);
    }
}

/// A slot page that fits the table, with any status.
pub fn write_slot_page(page: &mut [u8], status: u8, block: u16, contents: &[u8]) {
    page.fill(0xFF);
    page[0] = status;
    page[1] = contents.len() as u8;
    page[2..4].copy_from_slice(&block.to_le_bytes());
    page[8..8 + contents.len()].copy_from_slice(contents);
}

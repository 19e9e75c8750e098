//! Document 01 tried on the reference implementation and, if it is linked, on the library.
#![cfg_attr(not(qbx_lib), allow(dead_code))]

mod account;
mod account_cuts;
mod account_images;
mod account_samples;
mod blank_test;
mod conditions;
mod cut_slots;
mod cuts;
mod damage;
mod empty_records;
mod examples;
mod flash_plain;
mod former_board;
mod geometries;
mod harness;
mod headers;
mod heads;
mod images;
mod largest_chip;
mod many_segments;
mod mixed_versions;
#[cfg(qbx_lib)]
mod mounted_binding;
mod mounted_cuts;
mod mounted_harness;
mod mounted_plain;
mod mounted_reference;
mod mounted_runs;
mod mounted_strange;
mod mounted_strangers;
mod mounted_tables;
mod moving_cuts;
mod moving_harness;
mod moving_on;
mod moving_plain;
mod moving_reference;
mod moving_refusals;
mod moving_sources;
mod moving_tables;
mod pages;
mod power_cuts;
mod prng;
mod rebuild_cuts;
mod rebuild_images;
mod rebuild_refusals;
mod reference;
mod salvage_cuts;
mod salvage_harness;
mod salvage_images;
mod salvage_plain;
mod salvage_reference;
mod salvage_samples;
mod salvage_sources;
mod sequences;
#[cfg(qbx_lib)]
mod settings_binding;
mod settings_boards;
mod settings_cuts;
mod settings_cycles;
mod settings_harness;
mod settings_images;
mod settings_layouts;
mod settings_plain;
mod settings_reference;
mod settings_statuses;
mod settings_writes;
#[cfg(qbx_lib)]
mod shares_binding;
mod shares_cuts;
mod shares_harness;
mod shares_images;
mod shares_lists;
mod shares_plain;
mod shares_reference;
mod shares_runs;
mod step_lists;
#[cfg(qbx_lib)]
#[allow(dead_code)]
#[path = "../../src/sys.rs"]
mod sys;
mod tally_bits;
mod tally_of_a_life;
mod version_one;
mod worn_by_tally;

/// The reference's test for "every byte is 255".
fn all_255(bytes: &[u8]) -> bool {
    bytes.iter().all(|&byte| byte == 0xFF)
}

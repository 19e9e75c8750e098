//! A record store on NOR flash that is proved to survive power cuts.
//!
//! The store keeps up to 65,534 numbered blocks of 1 to 248 bytes on an image of a flash chip.
//! On such a chip programming only clears bits, and only erasing a whole segment sets them again.
//! Whatever the image holds and whenever the power goes, the store shows the table that the
//! acknowledged requests made, with the interrupted request wholly done or not begun.
//!
//! This crate is a thin, safe layer over the proved static library: it adds types, and takes
//! nothing away. It holds no state but what is lent to it, and has no dependency. Only
//! `Geometry::account` and `Geometry::salvage` allocate, the text that they give back; without the
//! feature `alloc`, which is a default one, the crate lacks them and wants no allocator.
//!
//! - [`Geometry`] is the shape of the chip, and its methods are the requests:
//!   [`format`](Geometry::format), [`put`](Geometry::put), [`delete`](Geometry::delete),
//!   [`recover`](Geometry::recover), [`read`](Geometry::read) and [`read_or`](Geometry::read_or).
//! - [`Geometry::mount`] makes a [`Mounted`] store, of an image and a table of places that is lent
//!   too: its requests do the same, but do not go over the whole image each time.
//! - [`Geometry::move_to`] builds an image for another chip, with the blocks of the old one.
//! - [`Geometry::account_into`] says what an image holds, for paper, as text in a buffer that is
//!   lent; `Geometry::account` gives the same as a string.
//! - [`Geometry::salvage_into`] and `Geometry::salvage` say in the same way what can still be found in
//!   a damaged image, and [`Geometry::rebuild`] builds a fresh image of it. They promise nothing of
//!   what was acknowledged.
//! - [`Geometry::tenant`] makes the view of one [`Tenant`], by a list of [`Share`]s: its own blocks,
//!   up to its quota, and nothing of what others store.
//! - [`Settings`] is apart from the store: the settings of a board with the older partition format, in
//!   an image of their own. [`SettingsError`] has that part's own refusals.
//! - [`Answer`] is what comes back, with the numbers of document 01.
//! - [`Outcome`] has the count of flash steps done, and [`Read`] the contents, borrowed from the
//!   image.
//! - [`blank_test`] is the store's test for erased bytes.
//!
//! # Example
//!
#![cfg_attr(qbx_lib, doc = "```")]
#![cfg_attr(not(qbx_lib), doc = "```no_run")]
//! use qanbillox::{Answer, Block, Geometry, UNLIMITED};
//!
//! fn main() -> Result<(), Answer> {
//!     let chip = Geometry { segments: 16, slots: 255 };
//!     let mut image = vec![0xFF; chip.image_len().unwrap()];
//!
//!     chip.format(&mut image, UNLIMITED).into_result()?;
//!     chip.put(&mut image, Block(12), b"tenant 12", UNLIMITED).into_result()?;
//!     assert_eq!(chip.read(&image, Block(12)).into_result()?, b"tenant 12");
//!
//!     // A budget of flash steps plays a power cut: here after the fourth step.
//!     let cut = chip.put(&mut image, Block(31), b"tenant 31", 4);
//!     assert_eq!((cut.answer, cut.steps), (Answer::Cut, 4));
//!
//!     chip.recover(&mut image, UNLIMITED).into_result()?;
//!     assert_eq!(chip.read(&image, Block(31)).answer, Answer::Absent);
//!     assert_eq!(chip.read(&image, Block(12)).into_result()?, b"tenant 12");
//!     Ok(())
//! }
//! ```
//!
//! # Mounted
//!
//! Each request on an image goes over the whole of it. Whoever makes many lends a table of [`PLACES`]
//! entries, 256 KiB, and mounts once:
//!
#![cfg_attr(qbx_lib, doc = "```")]
#![cfg_attr(not(qbx_lib), doc = "```no_run")]
//! use qanbillox::{Answer, Block, Geometry, PLACES, UNLIMITED};
//!
//! fn main() -> Result<(), Answer> {
//!     let chip = Geometry { segments: 16, slots: 255 };
//!     let mut image = vec![0xFF; chip.image_len().unwrap()];
//!     let mut places = vec![0; PLACES];
//!     chip.format(&mut image, UNLIMITED).into_result()?;
//!
//!     let mut store = chip.mount(&mut image, &mut places)?;
//!     for shelf in 1..=1_000 {
//!         store.put(Block(shelf), b"tenant 12", UNLIMITED).into_result()?;
//!     }
//!     assert_eq!(store.read(Block(31)).into_result()?, b"tenant 12");
//!     Ok(())
//! }
//! ```
//!
//! After a power cut a mounted store only answers that it is to be mounted again: [`Mounted`] says
//! what comes then.
//!
//! # Versions
//!
//! A format makes an image of version 2, which counts the erases that recoveries make. Images of
//! version 1, from stores that did not, can be read, deleted from and recovered; a put on one answers
//! [`FormerVersion`](Answer::FormerVersion). A [move](Geometry::move_to) makes version 2 of it.
//!
//! # The static library
//!
//! `tools/build qanbillox` proves the store and writes `target/staticlib/libqanbillox.a`, where
//! this crate's build script finds it; `QANBILLOX_LIB_DIR` names another directory.

#![no_std]
#![warn(missing_docs)]

#[cfg(feature = "alloc")]
extern crate alloc;

mod account;
mod answer;
mod blank;
mod geometry;
mod mounted;
mod moving;
mod request;
mod salvage;
mod settings;
mod settings_error;
mod sys;
mod tenant;

pub use account::Account;
pub use answer::Answer;
pub use blank::{blank_test, BlankTest};
pub use geometry::{Geometry, MAX_CONTENTS, PAGE};
pub use mounted::{Mounted, PLACES};
pub use request::{Block, Outcome, Read, Request, UNLIMITED};
pub use salvage::Salvage;
pub use settings::Settings;
pub use settings_error::SettingsError;
pub use tenant::{Share, Tenant, MAX_TENANTS};

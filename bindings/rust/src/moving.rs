use crate::sys;
use crate::{Geometry, Outcome};

/// Moving to another chip.
impl Geometry {
    /// Builds in `target` a fresh image of the geometry `wanted`, of version 2, with the blocks of
    /// `source`, an image of this geometry. The source is not written; `target` may hold anything
    /// before. The two geometries may be the same.
    ///
    /// The target is formatted, and then each block is stored in it by rising number, also one with a
    /// record of 0 bytes from before puts of 0 bytes were refused. Its tally of recoveries' erases is 0.
    /// So sources with equal blocks and contents give equal targets. The source may be of version 1: a
    /// move is the way to go on writing such a store.
    ///
    /// The answers, in their order: [`Size`](crate::Answer::Size) for either image,
    /// [`Damaged`](crate::Answer::Damaged) or [`Unfinished`](crate::Answer::Unfinished) for the source,
    /// [`Full`](crate::Answer::Full) if the source has more blocks than `wanted` has
    /// [`capacity`](Geometry::capacity), [`Cut`](crate::Answer::Cut). After a cut nothing is promised of
    /// the target, and a recovery does not help: the move is begun again.
    ///
    /// It takes 276,888 bytes of stack, for a table that puts the blocks in order.
    ///
    #[cfg_attr(qbx_lib, doc = "```")]
    #[cfg_attr(not(qbx_lib), doc = "```no_run")]
    /// use qanbillox::{Answer, Block, Geometry, UNLIMITED};
    ///
    /// # fn main() -> Result<(), Answer> {
    /// let old = Geometry { segments: 4, slots: 15 };
    /// let mut source = vec![0; old.image_len().unwrap()];
    /// old.format(&mut source, UNLIMITED).into_result()?;
    /// for (block, contents) in [(31, "tenant 31"), (7, "tenant 7")] {
    ///     old.put(&mut source, Block(block), contents.as_bytes(), UNLIMITED).into_result()?;
    /// }
    ///
    /// // The new board's chip has eight segments of two slots.
    /// let new = Geometry { segments: 8, slots: 2 };
    /// let mut target = vec![0; new.image_len().unwrap()];
    /// let steps = old.move_to(&source, new, &mut target, UNLIMITED).into_result()?;
    /// assert_eq!(steps, 8 + 21 + (5 + 9) + (5 + 8));
    /// assert_eq!(new.read(&target, Block(31)).into_result()?, b"tenant 31");
    /// new.put(&mut target, Block(12), b"tenant 12", UNLIMITED).into_result()?;
    ///
    /// // Three blocks are too many for the smallest chip, which holds one.
    /// let small = Geometry { segments: 2, slots: 2 };
    /// let mut lent = vec![0; small.image_len().unwrap()];
    /// assert_eq!(new.move_to(&target, small, &mut lent, UNLIMITED).answer, Answer::Full);
    /// assert!(lent.iter().all(|&byte| byte == 0));
    ///
    /// // The power goes on the way: the move is begun again.
    /// assert_eq!(old.move_to(&source, new, &mut target, 30).answer, Answer::Cut);
    /// assert_eq!(old.move_to(&source, new, &mut target, UNLIMITED).into_result()?, steps);
    /// # Ok(())
    /// # }
    /// ```
    pub fn move_to(
        self,
        source: &[u8],
        wanted: Geometry,
        target: &mut [u8],
        budget: u64,
    ) -> Outcome {
        // SAFETY: pointers and lengths are those of two slices that are borrowed for the call; the
        // one that is written is borrowed alone, so that they do not overlap.
        Outcome::unpack(unsafe {
            sys::qbx_move(
                source.as_ptr(),
                source.len(),
                self.segments,
                self.slots,
                target.as_mut_ptr(),
                target.len(),
                wanted.segments,
                wanted.slots,
                budget,
            )
        })
    }
}

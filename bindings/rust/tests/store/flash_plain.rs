//! Flash steps in plain Rust, for the implementations that the library's speed is compared with: an
//! erase fills, programming takes a slice at a time, and what is left of the allowance is kept. The
//! tests and the bench both include this file.

use super::reference::*;

/// The allowance is spent.
pub struct Spent;

/// The chip, and how many steps are allowed still.
pub struct Flash<'a> {
    pub g: Geometry,
    pub image: &'a mut [u8],
    allowance: u64,
    left: u64,
}

impl<'a> Flash<'a> {
    pub fn new(g: Geometry, image: &'a mut [u8], allowance: u64) -> Flash<'a> {
        Flash {
            g,
            image,
            allowance,
            left: allowance,
        }
    }

    /// The reply, once the steps are done or the allowance is spent.
    pub fn reply(&self, end: Result<(), Spent>) -> Reply {
        Reply {
            code: if end.is_ok() { DONE } else { CUT },
            steps: self.allowance - self.left,
        }
    }

    /// A step for each byte.
    pub fn program(&mut self, at: usize, bytes: &[u8]) -> Result<(), Spent> {
        let allowed = self.left.min(bytes.len() as u64) as usize;
        for (old, new) in self.image[at..].iter_mut().zip(&bytes[..allowed]) {
            *old &= new;
        }
        self.left -= allowed as u64;
        if allowed < bytes.len() {
            return Err(Spent);
        }
        Ok(())
    }

    pub fn erase(&mut self, index: usize) -> Result<(), Spent> {
        if self.left == 0 {
            return Err(Spent);
        }
        self.left -= 1;
        self.image[self.g.page(index, 0)..][..self.g.segment_len()].fill(0xFF);
        Ok(())
    }

    pub fn write_slot(&mut self, at: usize, block: u16, contents: &[u8]) -> Result<(), Spent> {
        let [low, high] = block.to_le_bytes();
        self.program(at, &[WRITING])?;
        self.program(at + 1, &[contents.len() as u8, low, high])?;
        self.program(at + 8, contents)?;
        self.program(at, &[LIVE])
    }

    /// The first bytes of a header.
    pub fn write_mark(&mut self, header: usize) -> Result<(), Spent> {
        self.program(header, b"SLT\x02\x00")?;
        self.program(header + 6, &[self.g.b as u8, self.g.n as u8])
    }

    /// The last ones.
    pub fn write_number(&mut self, header: usize, number: u32, total: u32) -> Result<(), Spent> {
        self.program(header + TOTAL.start, &total.to_le_bytes())?;
        self.program(header + 8, &number.to_le_bytes())?;
        self.program(header + 12, &(!number).to_le_bytes())
    }

    pub fn open(&mut self, index: usize, number: u32, total: u32) -> Result<(), Spent> {
        let header = self.g.page(index, 0);
        self.program(header + 5, &[OPENING])?;
        self.write_mark(header)?;
        self.write_number(header, number, total)?;
        self.program(header + 5, &[OPENED])
    }
}

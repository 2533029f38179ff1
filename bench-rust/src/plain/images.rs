//! Handing out bytes: the host lends two images, flash and RAM, and a domain reads an area out of one of them.

use super::*;

/// Bytes that lie in memory from an address on.
#[derive(Clone, Copy, Debug)]
pub struct Image<'a> {
    pub base: u32,
    pub bytes: &'a [u8],
}

impl<'a> Image<'a> {
    /// An end may be 2^32 or beyond, which needs the wider type.
    pub fn end(&self) -> u64 {
        u64::from(self.base) + self.bytes.len() as u64
    }

    /// Whether an address is in both, which none is where one of them is empty.
    pub fn overlaps(&self, other: &Image) -> bool {
        u64::from(self.base.max(other.base)) < self.end().min(other.end())
    }

    /// An area, if the whole of it is here.
    fn part(&self, base: u32, size: u32) -> Option<&'a [u8]> {
        let start = base.checked_sub(self.base)? as usize;
        self.bytes.get(start..)?.get(..size as usize)
    }
}

impl Kernel {
    /// Hands out an area that a domain may read: the bytes where they lie, no copy. A refusal hands out nothing.
    pub fn get_mem<'a>(
        &self,
        domain: i32,
        base: u32,
        size: u32,
        flash: Image<'a>,
        ram: Image<'a>,
    ) -> Result<&'a [u8], Er> {
        ensure(self.closed, E_CTX)?;
        ensure(flash.end() <= ADDRESSES && ram.end() <= ADDRESSES && !flash.overlaps(&ram), E_PAR)?;
        self.prb_mem(domain, base, size, TPM_READ)?;
        flash.part(base, size).or_else(|| ram.part(base, size)).ok_or(E_NOEXS)
    }
}

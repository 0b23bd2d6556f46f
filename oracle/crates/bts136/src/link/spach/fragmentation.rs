//! Shim: not given. `spach.rs` re-exports the name `SpachReceiver` alone; being its child, this module sees its private
//! items and lends them to the harness.
use super::{
    Channel, HeaderFlags, MobileIdentity, Reader, SpachError, put, read_address, read_header_a,
};

/// No other name leaves this module, so what the harness calls are its associated functions.
pub struct SpachReceiver;

impl SpachReceiver {
    /// `Reader::take`; each of the three readers gives what it read and the reader's offset after.
    pub(crate) fn take(
        bits: &[bool],
        offset: usize,
        width: usize,
    ) -> Result<(u64, usize), SpachError> {
        read(bits, offset, |reader| reader.take(width))
    }
    pub(crate) fn header_a(
        bits: &[bool],
        offset: usize,
    ) -> Result<((Channel, HeaderFlags), usize), SpachError> {
        read(bits, offset, read_header_a)
    }
    pub(crate) fn address(
        bits: &[bool],
        offset: usize,
    ) -> Result<((MobileIdentity, bool), usize), SpachError> {
        read(bits, offset, read_address)
    }
    pub(crate) fn put(bits: &mut Vec<bool>, value: u64, width: usize) {
        put(bits, value, width);
    }
}
fn read<T>(
    bits: &[bool],
    offset: usize,
    part: impl FnOnce(&mut Reader<'_>) -> Result<T, SpachError>,
) -> Result<(T, usize), SpachError> {
    let mut reader = Reader { bits, offset };
    let value = part(&mut reader)?;
    Ok((value, reader.offset))
}

//! The frames of packets on I2C (DSP0237) and I3C (DSP0233).

use crate::numbers::bounds::{I2C_FRAME_BYTES, I3C_FRAME_BYTES};
use crate::numbers::{I2cFault, I3cFault};
use crate::raw::{self, given, written};

/// What a frame on I2C carries.
#[derive(Clone, Copy, Debug, PartialEq, Eq)]
pub struct I2cFrame<'a> {
    /// The address of seven bits that it comes from, 0x08 to 0x77: an answer to the packet goes there.
    pub source_address: u8,
    /// The packet, 1 to 254 bytes.
    pub packet: &'a [u8],
}

fn part(bytes: &[u8], start: u32, length: u32) -> &[u8] {
    let start = start as usize;
    let end = start.saturating_add(length as usize);
    bytes.get(start..end).unwrap_or_default()
}

/// Writes the frame of a packet to the front of `out`, and returns its length in bytes, 9 to 259.
///
/// Addresses have seven bits. The result is `None`, with `out` as it was, where one is not 0x08 to 0x77, and where the
/// packet has fewer than 4 bytes or more than 254 (DSP0237).
pub fn i2c_write(
    source_address: u8,
    destination_address: u8,
    packet: &[u8],
    out: &mut [u8; I2C_FRAME_BYTES],
) -> Option<usize> {
    let (place, length) = given(packet);
    // SAFETY: `place` has `length` bytes that may be read; `out` has the bytes of a frame, and is borrowed alone.
    written(unsafe { raw::needleoat_i2c_write(source_address, destination_address, place, length, out.as_mut_ptr()) })
}

/// Reads the bytes of a block write at the device of `own_address`, from the address byte to the PEC.
///
/// # Errors
/// The first [`I2cFault`].
pub fn i2c_read(own_address: u8, bytes: &[u8]) -> Result<I2cFrame<'_>, I2cFault> {
    let (place, length) = given(bytes);
    // SAFETY: `place` has `length` bytes that may be read, and one at least.
    let frame = unsafe { raw::needleoat_i2c_read(own_address, place, length) };
    if frame.fault != 0 {
        return Err(I2cFault::of(frame.fault));
    }
    Ok(I2cFrame { source_address: frame.source_address, packet: part(bytes, frame.packet_start, frame.packet_length) })
}

/// Writes the frame of a packet to the front of `out`, and returns its length in bytes, 5 to 255.
///
/// `address` is the target's dynamic address, and `is_read` whether the controller reads from it. The result is `None`,
/// with `out` as it was, where `address` is above 0x7F, and where the packet has fewer than 4 bytes or more than 254
/// (DSP0233).
pub fn i3c_write(address: u8, is_read: bool, packet: &[u8], out: &mut [u8; I3C_FRAME_BYTES]) -> Option<usize> {
    let (place, length) = given(packet);
    // SAFETY: `place` has `length` bytes that may be read; `out` has the bytes of a frame, and is borrowed alone.
    written(unsafe { raw::needleoat_i3c_write(address, is_read, place, length, out.as_mut_ptr()) })
}

/// Reads the bytes of a transfer to or from the target of this dynamic address, and returns the packet before the PEC.
///
/// # Errors
/// The first [`I3cFault`].
pub fn i3c_read(address: u8, is_read: bool, bytes: &[u8]) -> Result<&[u8], I3cFault> {
    let (place, length) = given(bytes);
    // SAFETY: `place` has `length` bytes that may be read, and one at least.
    let frame = unsafe { raw::needleoat_i3c_read(address, is_read, place, length) };
    match frame.fault {
        0 => Ok(part(bytes, 0, frame.packet_length)),
        fault => Err(I3cFault::of(fault)),
    }
}

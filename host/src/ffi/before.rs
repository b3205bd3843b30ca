//! For `timed` to compare: an earlier libcontroller.a, whose function `host/speed` renames.
//!
//! Its signature stands in this file alone, and is that of before request [9]: one answer is
//! stored, one request kept, and the record says of one tag. To time a controller of another
//! signature, edit this file.

use super::Sent;

#[repr(C)]
pub struct TagRecord {
    fresh: bool,
    tag: u32,
    words: usize,
    request: usize,
}

extern "C" {
    fn charkhavo_serve_before(
        memory: *mut u32,
        memory_length: usize,
        kept: *mut u8,
        kept_length: usize,
        stored: *mut u32,
        stored_length: usize,
        output: *mut u8,
        output_length: usize,
        tags: *mut TagRecord,
        datagram: *const u8,
        datagram_length: usize,
    ) -> Sent;
}

/// The fresh record.
pub fn fresh() -> TagRecord {
    TagRecord { fresh: true, tag: 0, words: 0, request: 0 }
}

/// Serves one datagram. Takes all that the controller of now is lent; what the earlier one has no
/// use for stays as it is.
#[inline(always)]
pub fn serve(
    memory: &mut [u32],
    stored: &mut [u32],
    kept: &mut [u8],
    output: &mut [u8],
    tags: &mut TagRecord,
    datagram: &[u8],
) -> Sent {
    // Sound: five lent exclusively, one shared, each with its own length.
    unsafe {
        charkhavo_serve_before(
            memory.as_mut_ptr(),
            memory.len(),
            kept.as_mut_ptr(),
            kept.len(),
            stored.as_mut_ptr(),
            stored.len(),
            output.as_mut_ptr(),
            output.len(),
            tags,
            datagram.as_ptr(),
            datagram.len(),
        )
    }
}

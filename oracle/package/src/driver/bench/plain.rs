//! The plain C reader of oracle/bench/plain.c.

extern "C" {
    fn plain_read(input: *const u8, nodes: *mut u64, text: *mut u8, stack: *mut u64, told: *mut u64);
}

/// Reads what stands before the byte 0 that ends the input.
///
/// # Safety
/// It checks nothing: the input has to be one that our reader takes, and the buffers those that it takes for it.
pub unsafe fn read(input: &[u8], nodes: &mut [u64], text: &mut [u8], stack: &mut [u64], told: &mut [u64; 3]) {
    assert_eq!(input.last(), Some(&0), "a byte 0 ends the input");
    plain_read(input.as_ptr(), nodes.as_mut_ptr(), text.as_mut_ptr(), stack.as_mut_ptr(), told.as_mut_ptr());
}

//! The library's functions, as include/sealed_frames.h declares them. A `&[u8]` crosses as a pointer and then a length.

mod raw {
    unsafe extern "C" {
        pub fn sealed_frames_seal(
            cipher: u8, masking: u8, key: *const u8, key_len: usize, sender: u8, number: u64, mode: u8, clear: *const u8, clear_len: usize, message: *const u8,
            message_len: usize, out: *mut u8, out_len: usize,
        ) -> u64;
        pub fn sealed_frames_open(
            cipher: u8, masking: u8, key: *const u8, key_len: usize, frame: *const u8, frame_len: usize, out: *mut u8, out_len: usize,
        ) -> u64;
        pub fn sealed_frames_mode_seal(
            cipher: u8, masking: u8, key: *const u8, key_len: usize, mode: u8, nonce: *const u8, nonce_len: usize, header: *const u8, header_len: usize,
            message: *const u8, message_len: usize, out: *mut u8, out_len: usize, tag: *mut u8, tag_len: usize,
        ) -> u64;
        pub fn sealed_frames_mode_open(
            cipher: u8, masking: u8, key: *const u8, key_len: usize, mode: u8, nonce: *const u8, nonce_len: usize, header: *const u8, header_len: usize,
            sealed: *const u8, sealed_len: usize, tag: *const u8, tag_len: usize, out: *mut u8, out_len: usize,
        ) -> u64;
        pub fn sealed_frames_encrypt_blocks(cipher: u8, key: *const u8, key_len: usize, bytes: *mut u8, bytes_len: usize) -> u64;
        pub fn sealed_frames_decrypt_blocks(cipher: u8, key: *const u8, key_len: usize, bytes: *mut u8, bytes_len: usize) -> u64;
    }
}

/// The top bit of a code says that it is no length.
pub const TOP_BIT: u64 = 1 << 63;

pub fn seal(cipher: u8, masking: u8, key: &[u8], sender: u8, number: u64, mode: u8, clear: &[u8], message: &[u8], out: &mut [u8]) -> u64 {
    // SAFETY: each pointer is that of a slice of the length that follows it, and the output overlaps no other.
    unsafe {
        raw::sealed_frames_seal(
            cipher, masking, key.as_ptr(), key.len(), sender, number, mode, clear.as_ptr(), clear.len(), message.as_ptr(), message.len(), out.as_mut_ptr(), out.len(),
        )
    }
}

pub fn open(cipher: u8, masking: u8, key: &[u8], frame: &[u8], out: &mut [u8]) -> u64 {
    // SAFETY: as in `seal`.
    unsafe { raw::sealed_frames_open(cipher, masking, key.as_ptr(), key.len(), frame.as_ptr(), frame.len(), out.as_mut_ptr(), out.len()) }
}

pub fn mode_seal(cipher: u8, masking: u8, key: &[u8], mode: u8, nonce: &[u8], header: &[u8], message: &[u8], out: &mut [u8], tag: &mut [u8]) -> u64 {
    // SAFETY: as in `seal`.
    unsafe {
        raw::sealed_frames_mode_seal(
            cipher, masking, key.as_ptr(), key.len(), mode, nonce.as_ptr(), nonce.len(), header.as_ptr(), header.len(), message.as_ptr(), message.len(),
            out.as_mut_ptr(), out.len(), tag.as_mut_ptr(), tag.len(),
        )
    }
}

pub fn mode_open(cipher: u8, masking: u8, key: &[u8], mode: u8, nonce: &[u8], header: &[u8], sealed: &[u8], tag: &[u8], out: &mut [u8]) -> u64 {
    // SAFETY: as in `seal`.
    unsafe {
        raw::sealed_frames_mode_open(
            cipher, masking, key.as_ptr(), key.len(), mode, nonce.as_ptr(), nonce.len(), header.as_ptr(), header.len(), sealed.as_ptr(), sealed.len(),
            tag.as_ptr(), tag.len(), out.as_mut_ptr(), out.len(),
        )
    }
}

pub fn encrypt_blocks(cipher: u8, key: &[u8], bytes: &mut [u8]) -> u64 {
    // SAFETY: as in `seal`.
    unsafe { raw::sealed_frames_encrypt_blocks(cipher, key.as_ptr(), key.len(), bytes.as_mut_ptr(), bytes.len()) }
}

pub fn decrypt_blocks(cipher: u8, key: &[u8], bytes: &mut [u8]) -> u64 {
    // SAFETY: as in `seal`.
    unsafe { raw::sealed_frames_decrypt_blocks(cipher, key.as_ptr(), key.len(), bytes.as_mut_ptr(), bytes.len()) }
}

//! The calls of hpr.h, over slices.

/// How many bytes the two texts of a call have.
#[repr(C)]
#[derive(Clone, Copy, Default)]
pub(crate) struct Sizes {
    pub(crate) out: usize,
    pub(crate) err: usize,
}

/// Words, names of files, how many bytes each file has, and these bytes, packed as hpr.h says.
pub(crate) struct Given {
    pub(crate) words: Vec<u8>,
    pub(crate) names: Vec<u8>,
    pub(crate) lengths: Vec<usize>,
    pub(crate) bytes: Vec<u8>,
}

mod c {
    use super::Sizes;

    extern "C" {
        pub(super) fn hpr_version() -> u32;

        pub(super) fn hpr_integrate(
            base: *const u8,
            base_len: usize,
            a: *const u8,
            a_len: usize,
            b: *const u8,
            b_len: usize,
            out: *mut u8,
            out_room: usize,
            err: *mut u8,
            err_room: usize,
            sizes: *mut Sizes,
        ) -> u32;

        pub(super) fn hpr_call(
            words: *const u8,
            words_len: usize,
            names: *const u8,
            names_len: usize,
            lengths: *const usize,
            lengths_len: usize,
            bytes: *const u8,
            bytes_len: usize,
            out: *mut u8,
            out_room: usize,
            err: *mut u8,
            err_room: usize,
            sizes: *mut Sizes,
        ) -> u32;

        pub(super) fn hpr_data(
            words: *const u8,
            words_len: usize,
            names: *const u8,
            names_len: usize,
            lengths: *const usize,
            lengths_len: usize,
            bytes: *const u8,
            bytes_len: usize,
            out: *mut u8,
            out_room: usize,
            size: *mut usize,
        ) -> u32;

        pub(super) fn hpr_places(
            text: *const u8,
            len: usize,
            out: *mut u8,
            out_room: usize,
            size: *mut usize,
        ) -> u32;
    }
}

pub(crate) fn version() -> u32 {
    // SAFETY: it takes nothing.
    unsafe { c::hpr_version() }
}

pub(crate) fn integrate(
    base: &[u8],
    a: &[u8],
    b: &[u8],
    out: &mut [u8],
    err: &mut [u8],
) -> (u32, Sizes) {
    let mut sizes = Sizes::default();
    // SAFETY: each pointer and the length behind it are those of a slice that lives through the call; what is written is borrowed
    // by this function alone.
    let number = unsafe {
        c::hpr_integrate(
            base.as_ptr(),
            base.len(),
            a.as_ptr(),
            a.len(),
            b.as_ptr(),
            b.len(),
            out.as_mut_ptr(),
            out.len(),
            err.as_mut_ptr(),
            err.len(),
            &mut sizes,
        )
    };
    (number, sizes)
}

pub(crate) fn call(given: &Given, out: &mut [u8], err: &mut [u8]) -> (u32, Sizes) {
    let mut sizes = Sizes::default();
    // SAFETY: as above.
    let number = unsafe {
        c::hpr_call(
            given.words.as_ptr(),
            given.words.len(),
            given.names.as_ptr(),
            given.names.len(),
            given.lengths.as_ptr(),
            given.lengths.len(),
            given.bytes.as_ptr(),
            given.bytes.len(),
            out.as_mut_ptr(),
            out.len(),
            err.as_mut_ptr(),
            err.len(),
            &mut sizes,
        )
    };
    (number, sizes)
}

pub(crate) fn data(given: &Given, out: &mut [u8]) -> (u32, usize) {
    let mut size = 0;
    // SAFETY: as above.
    let number = unsafe {
        c::hpr_data(
            given.words.as_ptr(),
            given.words.len(),
            given.names.as_ptr(),
            given.names.len(),
            given.lengths.as_ptr(),
            given.lengths.len(),
            given.bytes.as_ptr(),
            given.bytes.len(),
            out.as_mut_ptr(),
            out.len(),
            &mut size,
        )
    };
    (number, size)
}

pub(crate) fn places(text: &[u8], out: &mut [u8]) -> (u32, usize) {
    let mut size = 0;
    // SAFETY: as above.
    let number = unsafe {
        c::hpr_places(
            text.as_ptr(),
            text.len(),
            out.as_mut_ptr(),
            out.len(),
            &mut size,
        )
    };
    (number, size)
}

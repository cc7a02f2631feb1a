//! The static library of the C interface, for Rust.
//!
//! A slice parameter of the interface is a pointer followed by its number of
//! elements; an empty slice needs a pointer that is not null, as every slice of
//! Rust has one. Every function returns the refusal's number, 0 if none.

/// The functions as the library exports them.
mod raw {
    extern "C" {
        pub fn dhiirqobaal_region(
            numbers: *const u32,
            numbers_len: usize,
            w: usize,
            h: usize,
            region: *mut u8,
            region_len: usize,
        ) -> u64;
        pub fn dhiirqobaal_mask(
            kernel: usize,
            levels: usize,
            w: usize,
            h: usize,
            region: *const u8,
            region_len: usize,
            mask: *mut u8,
            mask_len: usize,
        ) -> u64;
        pub fn dhiirqobaal_join(
            w: usize,
            h: usize,
            first: *const u8,
            first_len: usize,
            second: *const u8,
            second_len: usize,
            joined: *mut u8,
            joined_len: usize,
        ) -> u64;
        pub fn dhiirqobaal_transform(
            kernel: usize,
            levels: usize,
            depth: usize,
            w: usize,
            h: usize,
            samples: *const u16,
            samples_len: usize,
            plane: *mut i32,
            plane_len: usize,
        ) -> u64;
        pub fn dhiirqobaal_undo(
            kernel: usize,
            levels: usize,
            w: usize,
            h: usize,
            plane: *const i32,
            plane_len: usize,
            undone: *mut i32,
            undone_len: usize,
        ) -> u64;
        pub fn dhiirqobaal_show(
            depth: usize,
            w: usize,
            h: usize,
            undone: *const i32,
            undone_len: usize,
            shown: *mut u16,
            shown_len: usize,
        ) -> u64;
        pub fn dhiirqobaal_show_level(
            kernel: usize,
            levels: usize,
            r: usize,
            depth: usize,
            w: usize,
            h: usize,
            plane: *const i32,
            plane_len: usize,
            undone: *mut i32,
            undone_len: usize,
            shown: *mut u16,
            shown_len: usize,
        ) -> u64;
        pub fn dhiirqobaal_brightness(
            w: usize,
            h: usize,
            picture: *const u16,
            picture_len: usize,
            region: *const u8,
            region_len: usize,
            results: *mut u64,
            results_len: usize,
        ) -> u64;
        pub fn dhiirqobaal_truncate(
            q: usize,
            w: usize,
            h: usize,
            mask: *const u8,
            mask_len: usize,
            plane: *mut i32,
            plane_len: usize,
        ) -> u64;
        pub fn dhiirqobaal_write(
            plane: *const i32,
            plane_len: usize,
            numbers: *const u32,
            numbers_len: usize,
            kernel: usize,
            levels: usize,
            depth: usize,
            w: usize,
            h: usize,
            mask: *mut u8,
            mask_len: usize,
            stream: *mut u8,
            stream_len: usize,
            results: *mut u64,
            results_len: usize,
        ) -> u64;
        pub fn dhiirqobaal_read(
            stream: *const u8,
            stream_len: usize,
            plane: *mut i32,
            plane_len: usize,
            mask: *mut u8,
            mask_len: usize,
            results: *mut u64,
            results_len: usize,
        ) -> u64;
        pub fn dhiirqobaal_show_stream(
            stream: *const u8,
            stream_len: usize,
            r: usize,
            plane: *mut i32,
            plane_len: usize,
            mask: *mut u8,
            mask_len: usize,
            undone: *mut i32,
            undone_len: usize,
            shown: *mut u16,
            shown_len: usize,
            results: *mut u64,
            results_len: usize,
        ) -> u64;
        pub fn dhiirqobaal_cut(
            stream: *const u8,
            stream_len: usize,
            wanted: usize,
            plane: *mut i32,
            plane_len: usize,
            mask: *mut u8,
            mask_len: usize,
            out: *mut u8,
            out_len: usize,
            results: *mut u64,
            results_len: usize,
        ) -> u64;
        pub fn dhiirqobaal_body(
            stream: *const u8,
            stream_len: usize,
            results: *mut u64,
            results_len: usize,
        ) -> u64;
        pub fn dhiirqobaal_arrived(
            stream: *mut u8,
            stream_len: usize,
            results: *mut u64,
            results_len: usize,
        ) -> u64;
        pub fn dhiirqobaal_header(
            stream: *const u8,
            stream_len: usize,
            results: *mut u64,
            results_len: usize,
        ) -> u64;
        pub fn dhiirqobaal_version() -> u64;
    }
}

// SAFETY of every function below: a slice's pointer stands before its number of
// elements, and a slice lent for writing overlaps no other.

pub fn region(numbers: &[u32], w: usize, h: usize, region: &mut [u8]) -> u64 {
    unsafe {
        raw::dhiirqobaal_region(
            numbers.as_ptr(),
            numbers.len(),
            w,
            h,
            region.as_mut_ptr(),
            region.len(),
        )
    }
}

pub fn mask(
    kernel: usize,
    levels: usize,
    w: usize,
    h: usize,
    region: &[u8],
    mask: &mut [u8],
) -> u64 {
    unsafe {
        raw::dhiirqobaal_mask(
            kernel,
            levels,
            w,
            h,
            region.as_ptr(),
            region.len(),
            mask.as_mut_ptr(),
            mask.len(),
        )
    }
}

pub fn join(w: usize, h: usize, first: &[u8], second: &[u8], joined: &mut [u8]) -> u64 {
    unsafe {
        raw::dhiirqobaal_join(
            w,
            h,
            first.as_ptr(),
            first.len(),
            second.as_ptr(),
            second.len(),
            joined.as_mut_ptr(),
            joined.len(),
        )
    }
}

pub fn transform(
    kernel: usize,
    levels: usize,
    depth: usize,
    w: usize,
    h: usize,
    samples: &[u16],
    plane: &mut [i32],
) -> u64 {
    unsafe {
        raw::dhiirqobaal_transform(
            kernel,
            levels,
            depth,
            w,
            h,
            samples.as_ptr(),
            samples.len(),
            plane.as_mut_ptr(),
            plane.len(),
        )
    }
}

pub fn undo(
    kernel: usize,
    levels: usize,
    w: usize,
    h: usize,
    plane: &[i32],
    undone: &mut [i32],
) -> u64 {
    unsafe {
        raw::dhiirqobaal_undo(
            kernel,
            levels,
            w,
            h,
            plane.as_ptr(),
            plane.len(),
            undone.as_mut_ptr(),
            undone.len(),
        )
    }
}

pub fn show(depth: usize, w: usize, h: usize, undone: &[i32], shown: &mut [u16]) -> u64 {
    unsafe {
        raw::dhiirqobaal_show(
            depth,
            w,
            h,
            undone.as_ptr(),
            undone.len(),
            shown.as_mut_ptr(),
            shown.len(),
        )
    }
}

#[allow(clippy::too_many_arguments)]
pub fn show_level(
    kernel: usize,
    levels: usize,
    r: usize,
    depth: usize,
    w: usize,
    h: usize,
    plane: &[i32],
    undone: &mut [i32],
    shown: &mut [u16],
) -> u64 {
    unsafe {
        raw::dhiirqobaal_show_level(
            kernel,
            levels,
            r,
            depth,
            w,
            h,
            plane.as_ptr(),
            plane.len(),
            undone.as_mut_ptr(),
            undone.len(),
            shown.as_mut_ptr(),
            shown.len(),
        )
    }
}

pub fn brightness(w: usize, h: usize, picture: &[u16], region: &[u8], results: &mut [u64]) -> u64 {
    unsafe {
        raw::dhiirqobaal_brightness(
            w,
            h,
            picture.as_ptr(),
            picture.len(),
            region.as_ptr(),
            region.len(),
            results.as_mut_ptr(),
            results.len(),
        )
    }
}

pub fn truncate(q: usize, w: usize, h: usize, mask: &[u8], plane: &mut [i32]) -> u64 {
    unsafe {
        raw::dhiirqobaal_truncate(
            q,
            w,
            h,
            mask.as_ptr(),
            mask.len(),
            plane.as_mut_ptr(),
            plane.len(),
        )
    }
}

#[allow(clippy::too_many_arguments)]
pub fn write(
    plane: &[i32],
    numbers: &[u32],
    kernel: usize,
    levels: usize,
    depth: usize,
    w: usize,
    h: usize,
    mask: &mut [u8],
    stream: &mut [u8],
    results: &mut [u64],
) -> u64 {
    unsafe {
        raw::dhiirqobaal_write(
            plane.as_ptr(),
            plane.len(),
            numbers.as_ptr(),
            numbers.len(),
            kernel,
            levels,
            depth,
            w,
            h,
            mask.as_mut_ptr(),
            mask.len(),
            stream.as_mut_ptr(),
            stream.len(),
            results.as_mut_ptr(),
            results.len(),
        )
    }
}

pub fn read(stream: &[u8], plane: &mut [i32], mask: &mut [u8], results: &mut [u64]) -> u64 {
    unsafe {
        raw::dhiirqobaal_read(
            stream.as_ptr(),
            stream.len(),
            plane.as_mut_ptr(),
            plane.len(),
            mask.as_mut_ptr(),
            mask.len(),
            results.as_mut_ptr(),
            results.len(),
        )
    }
}

pub fn show_stream(
    stream: &[u8],
    r: usize,
    plane: &mut [i32],
    mask: &mut [u8],
    undone: &mut [i32],
    shown: &mut [u16],
    results: &mut [u64],
) -> u64 {
    unsafe {
        raw::dhiirqobaal_show_stream(
            stream.as_ptr(),
            stream.len(),
            r,
            plane.as_mut_ptr(),
            plane.len(),
            mask.as_mut_ptr(),
            mask.len(),
            undone.as_mut_ptr(),
            undone.len(),
            shown.as_mut_ptr(),
            shown.len(),
            results.as_mut_ptr(),
            results.len(),
        )
    }
}

pub fn cut(
    stream: &[u8],
    wanted: usize,
    plane: &mut [i32],
    mask: &mut [u8],
    out: &mut [u8],
    results: &mut [u64],
) -> u64 {
    unsafe {
        raw::dhiirqobaal_cut(
            stream.as_ptr(),
            stream.len(),
            wanted,
            plane.as_mut_ptr(),
            plane.len(),
            mask.as_mut_ptr(),
            mask.len(),
            out.as_mut_ptr(),
            out.len(),
            results.as_mut_ptr(),
            results.len(),
        )
    }
}

pub fn body(stream: &[u8], results: &mut [u64]) -> u64 {
    unsafe {
        raw::dhiirqobaal_body(
            stream.as_ptr(),
            stream.len(),
            results.as_mut_ptr(),
            results.len(),
        )
    }
}

pub fn arrived(stream: &mut [u8], results: &mut [u64]) -> u64 {
    unsafe {
        raw::dhiirqobaal_arrived(
            stream.as_mut_ptr(),
            stream.len(),
            results.as_mut_ptr(),
            results.len(),
        )
    }
}

pub fn header(stream: &[u8], results: &mut [u64]) -> u64 {
    unsafe {
        raw::dhiirqobaal_header(
            stream.as_ptr(),
            stream.len(),
            results.as_mut_ptr(),
            results.len(),
        )
    }
}

/// The library's version: 10,000 times the major number, 100 times the minor one, and the patch.
pub fn version() -> u64 {
    unsafe { raw::dhiirqobaal_version() }
}

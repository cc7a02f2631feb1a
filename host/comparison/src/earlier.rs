//! One level by the passes before paper 3 of document 02. Each function returns
//! 0, or another number if it refuses.

mod raw {
    extern "C" {
        pub fn earlier_transform(
            kernel: usize,
            w: usize,
            h: usize,
            samples: *const u16,
            samples_len: usize,
            plane: *mut i32,
            plane_len: usize,
        ) -> u64;
        pub fn earlier_undo(
            kernel: usize,
            w: usize,
            h: usize,
            plane: *const i32,
            plane_len: usize,
            undone: *mut i32,
            undone_len: usize,
        ) -> u64;
    }
}

// SAFETY of both functions: a slice's pointer stands before its number of
// elements, and a slice lent for writing overlaps no other.

pub fn transform(kernel: usize, w: usize, h: usize, samples: &[u16], plane: &mut [i32]) -> u64 {
    unsafe {
        raw::earlier_transform(
            kernel,
            w,
            h,
            samples.as_ptr(),
            samples.len(),
            plane.as_mut_ptr(),
            plane.len(),
        )
    }
}

pub fn undo(kernel: usize, w: usize, h: usize, plane: &[i32], undone: &mut [i32]) -> u64 {
    unsafe {
        raw::earlier_undo(
            kernel,
            w,
            h,
            plane.as_ptr(),
            plane.len(),
            undone.as_mut_ptr(),
            undone.len(),
        )
    }
}

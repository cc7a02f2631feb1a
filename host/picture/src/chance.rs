//! What the tests of several formats take: numbers that look like chance, and files that were changed.

/// Numbers below a limit, the same in every run.
pub fn chance() -> impl FnMut(usize) -> usize {
    let mut state = 1u64;
    move |below| {
        state = state.wrapping_mul(6364136223846793005).wrapping_add(1442695040888963407);
        (state >> 33) as usize % below
    }
}

/// Hands on a file with one to three bytes changed, many times, each time others; most of them mean something to a
/// header.
pub fn changed(file: &[u8], mut check: impl FnMut(&[u8])) {
    let mut next = chance();
    for _ in 0..20_000 {
        let mut changed = file.to_vec();
        for _ in 0..=next(3) {
            let place = next(changed.len());
            changed[place] = b"0123456789 \n#P\xff\x00"[next(16)];
        }
        check(&changed);
    }
}

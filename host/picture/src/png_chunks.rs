//! The chunks of a PNG file: which of them the samples come from, and what the others tell.

/// What every PNG file begins with.
pub const SIGNATURE: &[u8] = b"\x89PNG\r\n\x1a\n";

/// Bytes of a chunk around its data: length and name in front, check sum behind.
const AROUND: usize = 12;

/// A PNG file, as far as its samples are concerned.
pub struct Chunks {
    /// The signature and the chunks that the samples come from, with their check sums. The others are left out: they
    /// alter no sample, and an odd one among them (a colour profile, a frame of an animation) is no reason to turn the
    /// picture back.
    pub needed: Vec<u8>,
    /// The bytes of compressed samples.
    pub data: usize,
    /// The number of significant bits that an sBIT chunk gives, where there is such a chunk.
    pub significant: Option<u32>,
    /// Whether a tRNS chunk makes some samples transparent.
    pub transparent: bool,
}

/// Walks the chunks of a file that begins with the signature, up to the end mark; what stands behind is not read.
pub fn walk(file: &[u8]) -> Result<Chunks, String> {
    let mut found = Chunks { needed: SIGNATURE.to_vec(), data: 0, significant: None, transparent: false };
    let mut rest = file.get(SIGNATURE.len()..).unwrap_or_default();
    loop {
        let (chunk, behind) = split(rest)
            .ok_or("the picture is cut: the PNG file ends before its IEND chunk; copy or make the file again")?;
        sort(&mut found, chunk)?;
        if name(chunk) == b"IEND" {
            return Ok(found);
        }
        rest = behind;
    }
}

/// The first chunk, and what stands behind it.
fn split(rest: &[u8]) -> Option<(&[u8], &[u8])> {
    let length = u32::from_be_bytes(*rest.first_chunk()?);
    rest.split_at_checked(usize::try_from(length).ok()?.checked_add(AROUND)?)
}

fn name(chunk: &[u8]) -> &[u8] {
    &chunk[4..8]
}

fn sort(found: &mut Chunks, chunk: &[u8]) -> Result<(), String> {
    let data = &chunk[8..chunk.len() - 4];
    match name(chunk) {
        b"IHDR" | b"IEND" => found.needed.extend_from_slice(chunk),
        b"IDAT" => {
            found.data += data.len();
            found.needed.extend_from_slice(chunk);
        }
        b"sBIT" if found.significant.is_none() => {
            found.significant = data.first().map(|&bits| bits.into());
            found.needed.extend_from_slice(chunk);
        }
        b"tRNS" => found.transparent = true,
        b"PLTE" => {}
        // A capital first letter says that the picture cannot be read without knowing this chunk.
        other if other[0].is_ascii_uppercase() => {
            return Err(format!("the PNG file has a chunk of an unknown kind, {}", other.escape_ascii()))
        }
        _ => {}
    }
    Ok(())
}

//! Files that are not taken: what they seem to be, and the command that makes a picture or a bitmap of them that is
//! taken.

use crate::png_chunks;

const TAKEN: &str = "PGM files (they begin with P5 or P2) and grey PNG files are taken";
const PBM: &str = "a PBM bitmap, which 'dhiirqobaal mask' and 'dhiirqobaal join' take; 'pbmtopgm 1 1 IN > OUT.pgm' \
                   (netpbm) makes a PGM file of it";
const STREAM: &str = "it seems to be a stream, not a picture; 'dhiirqobaal show IN OUT.pgm' makes a picture of it";

const BITMAPS: &str = "PBM files (they begin with P4 or P1) are taken, in which black is inside";
const STREAM_FOR_BITMAP: &str = "it seems to be a stream, not a bitmap; 'dhiirqobaal info IN' tells its rectangles, \
                                 which 'dhiirqobaal join' takes by --rect";

/// The pictures of other formats, by what their files begin with.
const STARTS: [(&[u8], &str); 6] = [
    (b"\xff\xd8\xff", "JPEG"),
    (b"GIF87a", "GIF"),
    (b"GIF89a", "GIF"),
    (b"BM", "BMP"),
    (b"II*\0", "TIFF"),
    (b"MM\0*", "TIFF"),
];

/// A format that is taken neither for a picture nor for a bitmap, and the command that makes a PGM picture of it.
fn kind(file: &[u8]) -> Option<(&'static str, &'static str)> {
    match file {
        [b'P', b'3' | b'6', ..] => Some(("PPM", "ppmtopgm IN")),
        [b'P', b'7', ..] => Some(("PAM", "pamtopnm IN | ppmtopgm")),
        [b'R', b'I', b'F', b'F', _, _, _, _, b'W', b'E', b'B', b'P', ..] => {
            Some(("WebP", "dwebp IN -ppm -o - | ppmtopgm"))
        }
        _ => {
            let (_, name) = STARTS.iter().find(|(start, _)| file.starts_with(start))?;
            Some((name, "anytopnm IN | ppmtopgm"))
        }
    }
}

/// Where the commands for a format come from.
fn packages(name: &str) -> &'static str {
    match name {
        "WebP" => "webp, netpbm",
        _ => "netpbm",
    }
}

/// Says what a file seems to be that is neither PGM nor PNG, and what to do.
pub fn message(file: &[u8]) -> String {
    match (file, kind(file)) {
        ([], _) => format!("the file is empty; {TAKEN}"),
        ([b'P', b'1' | b'4', ..], _) => PBM.to_string(),
        _ if is_stream(file) => STREAM.to_string(),
        (_, None) => format!("not a picture that is taken; {TAKEN}"),
        (_, Some(("PPM", grey))) => format!(
            "a PPM picture, which has colours; colour waits for a later version: '{grey} > OUT.pgm' (netpbm) makes it \
             grey"
        ),
        (_, Some(("PAM", grey))) => format!(
            "a PAM picture; '{grey} > OUT.pgm' (netpbm) makes a PGM file of it, grey where it has colours; colour \
             waits for a later version"
        ),
        (_, Some((name, grey))) => {
            format!("a {name} picture; {TAKEN}: '{grey} > OUT.pgm' ({}) makes one of it", packages(name))
        }
    }
}

/// The command that makes a bitmap, where another makes a PGM picture first.
fn threshold(grey: &str) -> String {
    format!("{grey} | pgmtopbm -threshold")
}

/// Says what a file seems to be that is not PBM, and what to do.
pub fn bitmap_message(file: &[u8]) -> String {
    let (name, command) = match (file, kind(file)) {
        ([], _) => return format!("the file is empty; {BITMAPS}"),
        _ if is_stream(file) => return STREAM_FOR_BITMAP.to_string(),
        ([b'P', b'2' | b'5', ..], _) => ("PGM", "pgmtopbm -threshold IN".to_string()),
        // Mixed with its background, since what is transparent is mostly stored as black.
        _ if file.starts_with(png_chunks::SIGNATURE) => ("PNG", threshold("pngtopnm -mix IN | ppmtopgm")),
        (_, Some((name, grey))) => (name, threshold(grey)),
        (_, None) => return format!("not a bitmap; {BITMAPS}"),
    };
    format!(
        "a {name} picture, not a bitmap; {BITMAPS}: '{command} > OUT.pbm' ({}) makes one of it, its dark half inside, \
         and GIMP exports one as .pbm",
        packages(name)
    )
}

/// Whether version, kernel, levels and depth stand where a stream's header has them.
fn is_stream(file: &[u8]) -> bool {
    matches!(file.get(4..14), Some([1, 0..=3, 1..=5, 1..=10, ..]))
}

#[cfg(test)]
mod tests {
    fn told(file: &[u8], words: &[&str]) {
        let message = crate::parse(file).expect_err("should be turned back");
        for word in words {
            assert!(message.contains(word), "{message}");
        }
    }

    #[test]
    fn colour_waits_for_a_later_version() {
        for file in [&b"P6 1 1 255 abc"[..], b"P3 1 1 255 1 2 3 "] {
            told(file, &["PPM", "colour waits for a later version", "'ppmtopgm IN > OUT.pgm'"]);
        }
        told(b"P7\nWIDTH 1\n", &["PAM", "colour waits for a later version", "'pamtopnm IN | ppmtopgm > OUT.pgm'"]);
    }

    #[test]
    fn other_pictures_by_name_with_the_command_that_helps() {
        for file in [&b"P1 1 1 1"[..], b"P4 1 1 \x80"] {
            told(file, &["PBM", "'pbmtopgm 1 1 IN > OUT.pgm'", "'dhiirqobaal mask' and 'dhiirqobaal join' take"]);
        }
        let any = "'anytopnm IN | ppmtopgm > OUT.pgm'";
        told(b"\xff\xd8\xff\xe0\0\x10JFIF", &["a JPEG picture", any]);
        told(b"GIF89a\x01\0", &["a GIF picture", any]);
        told(b"BM\x36\0", &["a BMP picture", any]);
        told(b"II*\0\x08", &["a TIFF picture", any]);
        told(b"MM\0*\0", &["a TIFF picture", any]);
        told(b"RIFF\x24\0\0\0WEBPVP8 ", &["a WebP picture", "'dwebp IN -ppm -o - | ppmtopgm > OUT.pgm'"]);
    }

    #[test]
    fn no_picture_at_all() {
        told(b"", &["empty", "P5 or P2", "PNG"]);
        for file in [&b"P"[..], b"P8 1 1", b"\x89PN", b"RIFF\x24\0\0\0WAVE", b"Hello"] {
            told(file, &["not a picture", "P5 or P2", "PNG"]);
        }
    }

    /// The worked stream of docs/FORMAT.md.
    const STREAM: [u8; 24] = [0, 0, 0, 0x14, 1, 0, 1, 8, 0, 2, 0, 2, 1, 3, 0, 0, 0, 0, 0, 1, 0, 1, 0x92, 0x49];

    #[test]
    fn a_stream_in_place_of_a_picture() {
        told(&STREAM, &["a stream", "dhiirqobaal show"]);
        told(&STREAM[..13], &["not a picture"]);
    }

    fn told_of_bitmap(file: &[u8], words: &[&str]) {
        let message = crate::bitmap::parse(file).expect_err("should be turned back");
        for word in words {
            assert!(message.contains(word), "{message}");
        }
    }

    #[test]
    fn pictures_in_place_of_a_bitmap() {
        for (file, name, command) in [
            (&b"P5 1 1 255 a"[..], "a PGM picture", "'pgmtopbm -threshold IN > OUT.pbm'"),
            (b"P2 1 1 255 7 ", "a PGM picture", "'pgmtopbm -threshold IN > OUT.pbm'"),
            (b"P6 1 1 255 abc", "a PPM picture", "'ppmtopgm IN | pgmtopbm -threshold > OUT.pbm'"),
            (b"P7\nWIDTH 1\n", "a PAM picture", "'pamtopnm IN | ppmtopgm | pgmtopbm -threshold > OUT.pbm'"),
            (
                b"\x89PNG\r\n\x1a\n\0\0\0\x0dIHDR",
                "a PNG picture",
                "'pngtopnm -mix IN | ppmtopgm | pgmtopbm -threshold > OUT.pbm' (netpbm)",
            ),
            (
                b"\xff\xd8\xff\xe0\0\x10JFIF",
                "a JPEG picture",
                "'anytopnm IN | ppmtopgm | pgmtopbm -threshold > OUT.pbm' (netpbm)",
            ),
            (
                b"RIFF\x24\0\0\0WEBPVP8 ",
                "a WebP picture",
                "'dwebp IN -ppm -o - | ppmtopgm | pgmtopbm -threshold > OUT.pbm' (webp, netpbm)",
            ),
        ] {
            told_of_bitmap(file, &[name, command, "GIMP exports one as .pbm", "black is inside"]);
        }
    }

    #[test]
    fn no_bitmap_at_all() {
        told_of_bitmap(b"", &["empty", "P4 or P1"]);
        for file in [&b"P"[..], b"P8 1 1", b"\x89PN", b"Hello", &STREAM[..13]] {
            told_of_bitmap(file, &["not a bitmap; ", "P4 or P1"]);
        }
        told_of_bitmap(&STREAM, &["a stream, not a bitmap", "'dhiirqobaal info IN'", "--rect"]);
    }
}

//! What PGM and PBM files have in common, as netpbm reads them: white space, comments, decimal numbers, and a width and
//! a height in front of the samples.

/// The part of a file that has not been read yet.
pub struct Input<'a> {
    pub rest: &'a [u8],
}

/// Why no number could be read.
pub enum Fault {
    End,
    NotNumber,
    TooLarge,
}

impl Fault {
    pub fn words(&self, what: &str) -> String {
        match self {
            Fault::End => format!("the picture is cut: the file ends before {what} and the white space behind it"),
            Fault::NotNumber => format!("{what} is not a number with white space behind it"),
            Fault::TooLarge => format!("{what} is too large, above {}", i32::MAX),
        }
    }
}

/// Width and height; neither is 0, and both are below 2^31.
#[derive(Clone, Copy)]
pub struct Size {
    pub width: u32,
    pub height: u32,
}

impl Size {
    pub fn count(&self) -> u64 {
        u64::from(self.width) * u64::from(self.height)
    }

    /// The sample of a number in reading order, for messages.
    pub fn sample(&self, number: u64) -> String {
        let width = u64::from(self.width);
        format!("the sample in column {}, row {} (counted from 0)", number % width, number / width)
    }
}

impl<'a> Input<'a> {
    /// What stands behind the two letters that name the format.
    pub fn of(file: &'a [u8], what: &str) -> Result<Input<'a>, String> {
        let (letters, rest) = file.split_at(file.len().min(2));
        match rest.first() {
            Some(&byte) if !is_blank(byte) && byte != b'#' => {
                Err(format!("not a {what}: no white space stands behind {}", letters.escape_ascii()))
            }
            _ => Ok(Input { rest }),
        }
    }

    fn byte(&mut self) -> Option<u8> {
        let (&first, rest) = self.rest.split_first()?;
        self.rest = rest;
        Some(first)
    }

    /// The next byte outside comments. A comment goes from # to the end of its line, and counts as that line end.
    fn next(&mut self) -> Option<u8> {
        let mut byte = self.byte()?;
        if byte == b'#' {
            while byte != b'\n' && byte != b'\r' {
                byte = self.byte()?;
            }
        }
        Some(byte)
    }

    /// The next byte outside comments and white space.
    pub fn visible(&mut self) -> Option<u8> {
        let mut byte = self.next()?;
        while is_blank(byte) {
            byte = self.next()?;
        }
        Some(byte)
    }

    /// The next decimal number and the one byte of white space behind it. Without that byte the number may be the
    /// beginning of a longer one, in a file that was cut.
    pub fn number(&mut self) -> Result<u32, Fault> {
        let mut byte = self.visible().ok_or(Fault::End)?;
        if !byte.is_ascii_digit() {
            return Err(Fault::NotNumber);
        }
        let mut value = 0i32;
        while byte.is_ascii_digit() {
            let digit = i32::from(byte - b'0');
            value = value.checked_mul(10).and_then(|v| v.checked_add(digit)).ok_or(Fault::TooLarge)?;
            byte = self.next().ok_or(Fault::End)?;
        }
        if is_blank(byte) {
            Ok(value.unsigned_abs())
        } else {
            Err(Fault::NotNumber)
        }
    }

    /// The next number, which a message calls `what`.
    pub fn named(&mut self, what: &str) -> Result<u32, String> {
        self.number().map_err(|fault| fault.words(what))
    }

    pub fn size(&mut self) -> Result<Size, String> {
        let (width, height) = (self.named("the width")?, self.named("the height")?);
        if width == 0 || height == 0 {
            return Err("the width or the height is 0".to_string());
        }
        Ok(Size { width, height })
    }

    /// The bytes of a raw file's samples.
    pub fn raw(&self, needed: u64) -> Result<&'a [u8], String> {
        let bytes = usize::try_from(needed).ok().and_then(|needed| self.rest.get(..needed));
        bytes.ok_or_else(|| {
            let there = self.rest.len();
            format!("the picture is cut: {there} of {needed} bytes of samples are there; copy or make the file again")
        })
    }

    /// What is odd of a raw file that is taken: a program that ends lines with CR LF wrote its header, behind which
    /// this input stands.
    pub fn odd(&self, file: &[u8], needed: u64) -> Option<String> {
        let behind = file.get((file.len() - self.rest.len()).checked_sub(1)?..)?;
        let further = self.rest.len() as u64 > needed;
        (behind.starts_with(b"\r\n") && further).then(|| {
            "the header ends with CR LF, where the format has one byte: the LF is taken for the first byte of samples, \
             as netpbm takes it; if the picture lies off by that byte, write the file with LF alone"
                .to_string()
        })
    }
}

fn is_blank(byte: u8) -> bool {
    matches!(byte, b' ' | b'\t' | b'\n' | b'\r')
}

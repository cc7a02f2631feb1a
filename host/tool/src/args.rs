//! The command line.
//!
//! Numbers are taken as they are given: whether a kernel, a level count or a rectangle is within the limits, the codec
//! decides, and says so by its refusal.

use crate::cable::{Cable, Time};
use crate::codec::KERNELS;
use crate::failure::STATUSES;
use crate::rectangles::Rectangle;
use crate::words::number;
use clap::{ArgGroup, Args, Parser, Subcommand, ValueEnum};
use picture::Format;
use std::ops::RangeInclusive;
use std::path::PathBuf;

/// Panel shots whose marked rectangles arrive exactly
///
/// A picture becomes one stream of bit planes, those of up to 32 rectangles first. The stream may be
/// cut at any byte from its region mark on, by 'cut' or by a call that breaks off: the rectangles
/// are exact, and the rest gets better with every byte. The link must deliver bytes unchanged:
/// mostly nothing shows a changed bit. A file name '-' is standard input or standard output.
#[derive(Parser)]
#[command(verbatim_doc_comment)]
#[command(name = "dhiirqobaal", version, propagate_version = true, subcommand_required = true)]
#[command(arg_required_else_help = true, disable_help_subcommand = true, after_help = STATUSES)]
pub struct Line {
    /// Say nothing but failures; the exit status tells the rest
    #[arg(short, long, global = true, display_order = 900, overrides_with = "quiet")]
    pub quiet: bool,
    #[command(subcommand)]
    pub command: Command,
}

#[derive(Subcommand)]
pub enum Command {
    Encode(Encode),
    Info(Info),
    Cut(Cut),
    Show(Show),
    Compare(Compare),
    Brightness(Brightness),
    Mask(Mask),
    Join(Join),
    Demo(Demo),
    Help(Help),
}

/// Make a stream of a picture
///
/// The picture is a PGM (plain or raw) or PNG file, grey, of any size up to 4,096 by 4,096. Its
/// depth is that of its maximum value unless --depth says otherwise.
///
/// 5/3 with 3 levels, the default, is a sound start. More levels show the rest of the picture
/// earlier and move the region mark a little later: take 5 where the call may end early, 1 where
/// the rectangles are all that counts. s has the shortest region mark at 2 levels and more. The
/// demonstration's panel, 1,366 by 768 samples with 8 rectangles: bit planes, bytes up to the region
/// mark and in all, and the mean difference outside the rectangles after 16, 32 and 64 seconds at
/// 115,200 bits a second:
///
///   kernel  levels  planes  region mark        all   16 s  32 s  64 s
///   s            3       9       87,710  1,248,817   69.8  30.3   2.7
///   s+p          3       9       97,228  1,255,725   72.1  32.1   2.3
///   tt           3       9      110,033  1,292,696  115.2  29.4   2.0
///   5/3          3       9       96,735  1,252,392   68.4  30.5   1.6
///   5/3          1       9       92,453  1,263,472  123.7  31.5   1.5
///   5/3          5       9       98,354  1,251,984   57.7  27.3   1.7
///   s+p          1       8       83,206  1,137,348   63.7  16.2   0.9
///   tt           2       8       95,599  1,162,488   59.2  15.1   1.1
///
/// A plane fewer is worth more than any other choice, and which kernel and level count save one
/// depends on the picture: where many of one kind are sent, encode one under each kernel and level
/// count, and take the one whose 'info' has the fewest planes T and the earliest region mark.
#[derive(Args)]
#[command(display_name = "dhiirqobaal")]
#[command(after_help = STATUSES, verbatim_doc_comment)]
#[command(override_usage = "dhiirqobaal encode [OPTIONS] IN OUT\n       dhiirqobaal encode [OPTIONS] --into DIR IN...")]
pub struct Encode {
    /// The picture and the stream, '-' for standard input and output; with --into, pictures alone
    #[arg(value_name = "FILE", required = true)]
    pub files: Vec<PathBuf>,
    /// Write the stream of each picture to DIR, its ending replaced by .stream
    #[arg(long, value_name = "DIR", allow_hyphen_values = true)]
    pub into: Option<PathBuf>,
    #[command(flatten)]
    pub marked: Marked,
    #[command(flatten)]
    pub transform: Transform,
    /// The depth D in bits, 1 to 10 [default: that of the picture's maximum value]
    #[arg(long, value_name = "D", value_parser = whole, allow_hyphen_values = true)]
    pub depth: Option<usize>,
    #[command(flatten)]
    pub cable: CableArgs,
}

/// Tell what a stream says of itself, and how much of it arrived
///
/// A file that is shorter than its length field says is what a call that broke off has left: it is
/// taken as the stream cut to what arrived. A bit that was changed on the way is mostly not seen by
/// any reader of this format: that all marked bits arrived does not say that they are right.
#[derive(Args)]
#[command(display_name = "dhiirqobaal")]
#[command(after_help = STATUSES, verbatim_doc_comment)]
pub struct Info {
    /// The streams, '-' for standard input
    #[arg(value_name = "STREAM", required = true)]
    pub files: Vec<PathBuf>,
    /// Print one JSON object for each stream, one a line
    #[arg(long)]
    pub json: bool,
    #[command(flatten)]
    pub cable: CableArgs,
}

/// Cut a stream to a length, from its region mark to its own
///
/// A length below the region mark or above the stream's own is refused (15). The input may be what
/// a call that broke off has left.
#[derive(Args)]
#[command(display_name = "dhiirqobaal")]
#[command(after_help = STATUSES, verbatim_doc_comment)]
#[command(group(ArgGroup::new("wanted").required(true).args(["length", "mark", "seconds"])))]
#[command(override_usage = "dhiirqobaal cut [OPTIONS] <--length BYTES|--mark|--seconds S> IN OUT
       dhiirqobaal cut [OPTIONS] <--length BYTES|--mark|--seconds S> --into DIR IN...")]
pub struct Cut {
    /// The stream and the cut stream, '-' for standard input and output; with --into, streams alone
    #[arg(value_name = "FILE", required = true)]
    pub files: Vec<PathBuf>,
    /// Write each cut stream to DIR, under the name of its stream
    #[arg(long, value_name = "DIR", allow_hyphen_values = true)]
    pub into: Option<PathBuf>,
    /// Cut to this many bytes
    #[arg(long, value_name = "BYTES", value_parser = whole, allow_hyphen_values = true)]
    pub length: Option<usize>,
    /// Cut to the region mark, the shortest length with exact rectangles
    #[arg(long)]
    pub mark: bool,
    /// Cut to what the cable carries in S seconds, to all where that is less; up to nine decimals
    #[arg(long, value_name = "S", allow_hyphen_values = true)]
    pub seconds: Option<Time>,
    #[command(flatten)]
    pub cable: CableArgs,
}

/// Make a picture of a stream, whole or cut
///
/// The input may be what a call that broke off has left. The picture is written as PNG where OUT
/// ends in .png, else as PGM, unless --format says otherwise.
///
/// With --level R the R finest levels are not undone, and the picture that remains is small: each
/// side is halved and rounded up, R times over; 'info' tells the sizes. It needs the bytes that the
/// full picture needs: what has not arrived is missing in both. A sample of it stands for a
/// block of 2^R by 2^R samples, and is what the transform makes of them: samples as captured are in
/// the full picture alone. Where every marked bit arrived (status 0), each sample whose block
/// touches a rectangle is the one that the whole stream shows at that level. A level above the
/// stream's J is refused (17).
#[derive(Args)]
#[command(display_name = "dhiirqobaal")]
#[command(after_help = STATUSES, verbatim_doc_comment)]
#[command(
    override_usage = "dhiirqobaal show [OPTIONS] STREAM OUT\n       dhiirqobaal show [OPTIONS] --into DIR STREAM..."
)]
pub struct Show {
    /// The stream and the picture, '-' for standard input and output; with --into, streams alone
    #[arg(value_name = "FILE", required = true)]
    pub files: Vec<PathBuf>,
    /// Write the picture of each stream to DIR, its ending replaced by .pgm or .png
    #[arg(long, value_name = "DIR", allow_hyphen_values = true)]
    pub into: Option<PathBuf>,
    /// The level of the picture: 0, the full one, to the stream's J, the smallest
    #[arg(long, value_name = "R", default_value = "0", value_parser = whole, allow_hyphen_values = true)]
    pub level: usize,
    /// The picture's format [default: by the ending of OUT, else pgm]
    #[arg(long, value_enum, ignore_case = true)]
    pub format: Option<FormatName>,
    /// Draw a frame around every exact rectangle, one sample outside it; with --level around its blocks
    #[arg(long)]
    pub frames: bool,
}

/// Compare two pictures sample by sample: everywhere, or within rectangles
#[derive(Args)]
#[command(display_name = "dhiirqobaal")]
#[command(after_help = STATUSES)]
pub struct Compare {
    /// The first picture, '-' for standard input
    pub a: PathBuf,
    /// The second picture, '-' for standard input
    pub b: PathBuf,
    #[command(flatten)]
    pub marked: Marked,
    /// Compare within the rectangles of this stream
    #[arg(long, value_name = "STREAM", allow_hyphen_values = true, conflicts_with_all = ["rect", "rects"])]
    pub stream: Option<PathBuf>,
}

/// Measure how bright rectangles or a region are, without rounding
///
/// The file is a stream, whole, cut or what a call that broke off has left, whose full picture is
/// measured, or a picture, PGM or PNG. Of a stream each of its own rectangles is measured, unless an
/// option names others; of a picture an option has to name them. Each rectangle is one line on
/// standard output, a bitmap's region is one line in all:
///
///   number=N sum=S quotient=Q remainder=R exact=E rect=X,Y,W,H
///   number=N sum=S quotient=Q remainder=R exact=E region=BITMAP
///
/// N samples have the sum S, and S = Q * N + R with R below N. Numbers and sums add up: those of two
/// regions that share no sample, added, are those of both joined. Nothing is printed unless every
/// line can be. The lines are printed with --quiet too.
///
/// E is yes where every bit arrived that the samples need, so that they are those of the picture
/// that was captured, unless the link changed a bit: where the marked bits arrived and the samples
/// lie in the stream's own rectangles, or where every bit of the picture arrived. Else it is no, and
/// the status is 1. Of a picture it is unknown: its file does not tell how it was made.
#[derive(Args)]
#[command(display_name = "dhiirqobaal")]
#[command(after_help = STATUSES, verbatim_doc_comment)]
pub struct Brightness {
    /// The stream or the picture, '-' for standard input
    pub file: PathBuf,
    #[command(flatten)]
    pub marked: Marked,
    /// Measure the region of this bitmap, a PBM file of the picture's size, in which black is inside
    #[arg(long, value_name = "BITMAP", allow_hyphen_values = true, conflicts_with_all = ["rect", "rects"])]
    pub region: Option<PathBuf>,
}

/// Make the mask of a region: the coefficients that its samples need
///
/// The region is a bitmap, a PBM file (plain or raw) of any size up to 4,096 by 4,096, drawn in any
/// picture editor: black is inside. Its mask is a bitmap of the same size, written as a raw PBM file:
/// black are the coefficients from which the samples inside are rebuilt exactly, whatever the others
/// are.
///
/// The mask lies where the coefficients lie. Each level parts an area in four, each side halved, the
/// first half the larger one where it is odd: in the upper left the lows, in the upper right the
/// highs of the rows, in the lower left those of the columns, in the lower right those of both. The
/// first level parts the whole bitmap, each further one the upper left part of the one before. So
/// the low part, where the region is seen small, lies in the upper left corner, and around it lie
/// the highs of each level.
#[derive(Args)]
#[command(display_name = "dhiirqobaal")]
#[command(after_help = STATUSES, verbatim_doc_comment)]
#[command(override_usage = "dhiirqobaal mask [OPTIONS] IN OUT")]
pub struct Mask {
    /// The region, '-' for standard input
    #[arg(value_name = "IN")]
    pub input: PathBuf,
    /// The mask, '-' for standard output
    #[arg(value_name = "OUT")]
    pub output: PathBuf,
    #[command(flatten)]
    pub transform: Transform,
}

/// Join regions, or masks: what is inside any of them
///
/// The bitmaps are PBM files (plain or raw) of one size; the joined one, a raw PBM file of that size,
/// is black where any of them is black or a rectangle lies. At least two parts are joined: two
/// bitmaps, or a bitmap and rectangles. Bitmaps of different sizes are refused (5).
///
/// The mask of joined regions is the join of their masks, byte for byte, under one kernel and level
/// count: where a region grows, the mask of what is new, joined with the old mask, is the new mask.
/// A rectangle is one of samples, so that --rect and --rects add to a region, not to a mask.
#[derive(Args)]
#[command(display_name = "dhiirqobaal")]
#[command(after_help = STATUSES, verbatim_doc_comment)]
#[command(override_usage = "dhiirqobaal join [OPTIONS] IN... OUT")]
pub struct Join {
    /// The bitmaps to join and, last, the joined one; '-' for standard input and output
    #[arg(value_name = "FILE", required = true)]
    pub files: Vec<PathBuf>,
    #[command(flatten)]
    pub marked: Marked,
}

/// Draw an operator panel, encode it, cut it at several lengths and show each, one also small
#[derive(Args)]
#[command(display_name = "dhiirqobaal")]
#[command(after_help = STATUSES)]
pub struct Demo {
    /// The folder for the pictures and streams, which is made where it is missing
    #[arg(value_name = "DIR", default_value = "dhiirqobaal-demo")]
    pub folder: PathBuf,
}

/// Print this help, or that of a command
#[derive(Args)]
#[command(display_name = "dhiirqobaal")]
#[command(after_help = STATUSES)]
pub struct Help {
    /// The command
    #[arg(value_name = "COMMAND")]
    pub command: Option<String>,
}

// No comment of help: clap would put it in the place of the command's own.
#[derive(Args)]
pub struct Marked {
    /// A rectangle, as x,y,w,h or WxH+X+Y; up to 32
    #[arg(long, value_name = "R", allow_hyphen_values = true)]
    pub rect: Vec<Rectangle>,
    /// A file of rectangles, one a line, behind those of --rect; what stands behind # is a comment
    #[arg(long, value_name = "FILE", allow_hyphen_values = true)]
    pub rects: Option<PathBuf>,
}

// The same holds here.
#[derive(Args)]
pub struct Transform {
    /// The kernel: s, s+p, tt or 5/3, or its number, 0 to 3
    #[arg(long, value_name = "K", default_value = "5/3", value_parser = kernel, allow_hyphen_values = true)]
    pub kernel: usize,
    /// The levels J, 1 to 5
    #[arg(long, value_name = "J", default_value = "3", value_parser = whole, allow_hyphen_values = true)]
    pub levels: usize,
}

// And here.
#[derive(Args)]
pub struct CableArgs {
    /// The cable's bits a second, 1 to 10^12, for all seconds
    #[arg(long, value_name = "B", default_value_t = Cable::default().baud, allow_hyphen_values = true)]
    #[arg(value_parser = baud)]
    baud: u64,
    /// The cable's bits a byte, 8 to 100; a UART with a start and a stop bit sends 10
    #[arg(long, value_name = "N", default_value_t = Cable::default().bits_per_byte, allow_hyphen_values = true)]
    #[arg(value_parser = bits_per_byte)]
    bits_per_byte: u64,
}

impl CableArgs {
    pub fn cable(&self) -> Cable {
        Cable { baud: self.baud, bits_per_byte: self.bits_per_byte }
    }
}

/// The formats by their names on the command line.
#[derive(Clone, Copy, ValueEnum)]
pub enum FormatName {
    /// PGM, raw
    Pgm,
    /// PGM in plain text
    Plain,
    /// PNG
    Png,
}

impl From<FormatName> for Format {
    fn from(name: FormatName) -> Format {
        match name {
            FormatName::Pgm => Format::Pgm,
            FormatName::Plain => Format::PlainPgm,
            FormatName::Png => Format::Png,
        }
    }
}

fn whole(text: &str) -> Result<usize, String> {
    number(text).ok_or_else(|| format!("it is not a whole number from 0 to {}", usize::MAX))
}

fn baud(text: &str) -> Result<u64, String> {
    within(text, 1..=1_000_000_000_000).ok_or_else(|| "a cable has 1 to 10^12 bits a second".to_string())
}

fn bits_per_byte(text: &str) -> Result<u64, String> {
    within(text, 8..=100).ok_or_else(|| "a cable takes 8 to 100 bits for a byte".to_string())
}

fn within(text: &str, range: RangeInclusive<u64>) -> Option<u64> {
    number(text).filter(|number| range.contains(number))
}

/// A kernel by its number, or by its name in either case of letters, with or without the sign inside.
fn kernel(text: &str) -> Result<usize, String> {
    let plain = |name: &str| name.replace(['+', '/'], "").to_lowercase();
    let named = |name: &&str| name.eq_ignore_ascii_case(text) || plain(name) == text.to_lowercase();
    let found = KERNELS.iter().position(named).or_else(|| number(text));
    found.ok_or_else(|| "a kernel is s, s+p, tt or 5/3, or a number, 0 to 3".to_string())
}

#[cfg(test)]
mod tests {
    use super::*;
    use clap::CommandFactory;

    #[test]
    fn the_command_line_is_in_order() {
        Line::command().debug_assert();
    }

    #[test]
    fn the_library_has_the_version_of_the_program() {
        let numbers: Vec<u64> = env!("CARGO_PKG_VERSION").split('.').map(|part| part.parse().unwrap()).collect();
        assert_eq!(bindings::version(), 10_000 * numbers[0] + 100 * numbers[1] + numbers[2]);
    }

    #[test]
    fn kernels_by_number_and_name() {
        let found = ["0", "1", "2", "3", "s", "S+P", "sp", "tt", "5/3", "53", "300"].map(kernel);
        assert_eq!(found, [0, 1, 2, 3, 0, 1, 1, 2, 3, 3, 300].map(Ok));
        assert!(["", "x", "-1", "+1", "0x2", "s/p", "s+"].map(kernel).iter().all(Result::is_err));
    }
}

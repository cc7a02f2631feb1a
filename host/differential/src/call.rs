//! One call of the interface with all its arguments, made either on the
//! library or on the reference.

use crate::guarded::{Argument, Element, Lent};
use std::fmt;

/// Each call, the function of that name on either side, and its arguments in
/// order: the calls as an enum, and what can be done with any of them.
macro_rules! calls {
    ($($call:ident = $function:ident($($argument:ident: $kind:ty),*);)*) => {
        /// A call's arguments; after the call, what its buffers then hold.
        #[derive(Clone, PartialEq)]
        pub enum Call {
            $($call { $($argument: $kind),* }),*
        }

        impl Call {
            /// Makes the call on the library. Gives the returned number and the
            /// first buffer whose guards were altered.
            pub fn on_library(&mut self) -> (u64, Option<&'static str>) {
                match self {
                    $(Call::$call { $($argument),* } => {
                        $(let mut $argument = $argument.lend(stringify!($argument));)*
                        let number = bindings::$function($($argument.part()),*);
                        let altered = [$($argument.end()),*];
                        (number, altered.into_iter().flatten().next())
                    })*
                }
            }

            /// Makes the call on the reference.
            pub fn on_reference(&mut self) -> u64 {
                match self {
                    $(Call::$call { $($argument),* } => {
                        reference::$function($($argument.plain()),*)
                    })*
                }
            }

            /// The entry's name.
            pub fn entry(&self) -> &'static str {
                match self {
                    $(Call::$call { .. } => stringify!($function)),*
                }
            }

            /// The call as a list of named numbers, for a report.
            pub fn facts(&self) -> Facts {
                let mut facts = Facts { entry: self.entry(), ..Facts::default() };
                match self {
                    $(Call::$call { $($argument),* } => {
                        $($argument.tell(stringify!($argument), &mut facts);)*
                    })*
                }
                facts
            }
        }
    };
}

calls! {
    Region = region(numbers: Vec<u32>, w: usize, h: usize, region: Vec<u8>);
    Mask = mask(
        kernel: usize, levels: usize, w: usize, h: usize,
        region: Vec<u8>, mask: Vec<u8>
    );
    Join = join(w: usize, h: usize, first: Vec<u8>, second: Vec<u8>, joined: Vec<u8>);
    Transform = transform(
        kernel: usize, levels: usize, depth: usize, w: usize, h: usize,
        samples: Vec<u16>, plane: Vec<i32>
    );
    Undo = undo(
        kernel: usize, levels: usize, w: usize, h: usize,
        plane: Vec<i32>, undone: Vec<i32>
    );
    Show = show(depth: usize, w: usize, h: usize, undone: Vec<i32>, shown: Vec<u16>);
    ShowLevel = show_level(
        kernel: usize, levels: usize, r: usize, depth: usize, w: usize, h: usize,
        plane: Vec<i32>, undone: Vec<i32>, shown: Vec<u16>
    );
    Brightness = brightness(
        w: usize, h: usize, picture: Vec<u16>, region: Vec<u8>, results: Vec<u64>
    );
    Truncate = truncate(q: usize, w: usize, h: usize, mask: Vec<u8>, plane: Vec<i32>);
    Write = write(
        plane: Vec<i32>, numbers: Vec<u32>,
        kernel: usize, levels: usize, depth: usize, w: usize, h: usize,
        mask: Vec<u8>, stream: Vec<u8>, results: Vec<u64>
    );
    Read = read(stream: Vec<u8>, plane: Vec<i32>, mask: Vec<u8>, results: Vec<u64>);
    ShowStream = show_stream(
        stream: Vec<u8>, r: usize, plane: Vec<i32>, mask: Vec<u8>,
        undone: Vec<i32>, shown: Vec<u16>, results: Vec<u64>
    );
    Cut = cut(
        stream: Vec<u8>, wanted: usize, plane: Vec<i32>, mask: Vec<u8>,
        out: Vec<u8>, results: Vec<u64>
    );
    Body = body(stream: Vec<u8>, results: Vec<u64>);
    Header = header(stream: Vec<u8>, results: Vec<u64>);
    Arrived = arrived(stream: Vec<u8>, results: Vec<u64>);
}

/// The named numbers and buffers of a call.
#[derive(Default)]
pub struct Facts {
    entry: &'static str,
    numbers: Vec<(&'static str, usize)>,
    buffers: Vec<(&'static str, Vec<i128>)>,
}

/// Buffers up to this length are printed in full.
const PRINTED: usize = 256;

impl Facts {
    pub fn number(&mut self, name: &'static str, number: usize) {
        self.numbers.push((name, number));
    }

    pub fn buffer<T: Element>(&mut self, name: &'static str, content: &[T]) {
        let content = content.iter().map(|&element| element.wide()).collect();
        self.buffers.push((name, content));
    }

    /// The first cell in which two calls of one kind and size differ.
    pub fn first_difference(&self, other: &Facts) -> Option<String> {
        for ((name, ours), (_, theirs)) in self.buffers.iter().zip(&other.buffers) {
            let place = (0..ours.len()).find(|&i| ours[i] != theirs[i]);
            if let Some(i) = place {
                return Some(format!(
                    "{name}[{i}]: library {}, reference {}",
                    ours[i], theirs[i]
                ));
            }
        }
        None
    }
}

impl fmt::Display for Facts {
    fn fmt(&self, f: &mut fmt::Formatter) -> fmt::Result {
        write!(f, "{}", self.entry)?;
        for (name, number) in &self.numbers {
            write!(f, ", {name} {number}")?;
        }
        for (name, content) in &self.buffers {
            write!(f, "\n    {name}, length {}", content.len())?;
            match content.first() {
                None => {}
                Some(first) if content.iter().all(|cell| cell == first) => {
                    write!(f, ": all {first}")?;
                }
                Some(_) if content.len() <= PRINTED => write!(f, ": {content:?}")?,
                Some(_) => write!(f, ": {:?}..", &content[..PRINTED])?,
            }
        }
        Ok(())
    }
}

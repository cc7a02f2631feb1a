//! A buffer lent to the library inside a larger one, whose guard elements on
//! either side must stay as they are.

use crate::call::Facts;

const GUARDS: usize = 32;

/// The element types of the interface, each with a pattern for the guards and
/// one for what an output buffer held before.
pub trait Element: Copy + PartialEq {
    const GUARD: Self;
    const HELD: Self;
    fn wide(self) -> i128;
}

macro_rules! element {
    ($kind:ty, $guard:expr, $held:expr) => {
        impl Element for $kind {
            const GUARD: $kind = $guard;
            const HELD: $kind = $held;
            fn wide(self) -> i128 {
                self as i128
            }
        }
    };
}

element!(u8, 0xA5, 0x3C);
element!(u16, 0xA5A5, 0x3C3C);
element!(u32, 0xA5A5_A5A5, 0x3C3C_3C3C);
element!(i32, -0x5A5A_5A5A, 0x3C3C_3C3C);
element!(u64, 0xA5A5_A5A5_A5A5_A5A5, 0x3C3C_3C3C_3C3C_3C3C);

/// An output buffer as it is before the call.
pub fn held<T: Element>(len: usize) -> Vec<T> {
    vec![T::HELD; len]
}

/// An argument of a call: a number, or a buffer.
pub trait Argument {
    type Lent<'a>: Lent
    where
        Self: 'a;
    type Plain<'a>
    where
        Self: 'a;

    /// As it is given to the library, a buffer within guards.
    fn lend(&mut self, name: &'static str) -> Self::Lent<'_>;

    /// As it is given to the reference.
    fn plain(&mut self) -> Self::Plain<'_>;

    fn tell(&self, name: &'static str, facts: &mut Facts);
}

/// What was lent for a call.
pub trait Lent {
    type Part<'b>
    where
        Self: 'b;

    /// What the call is given.
    fn part(&mut self) -> Self::Part<'_>;

    /// Gives the buffer's content back, and its name if a guard element was
    /// altered.
    fn end(self) -> Option<&'static str>;
}

impl Argument for usize {
    type Lent<'a> = usize;
    type Plain<'a> = usize;

    fn lend(&mut self, _: &'static str) -> usize {
        *self
    }

    fn plain(&mut self) -> usize {
        *self
    }

    fn tell(&self, name: &'static str, facts: &mut Facts) {
        facts.number(name, *self);
    }
}

impl Lent for usize {
    type Part<'b> = usize;

    fn part(&mut self) -> usize {
        *self
    }

    fn end(self) -> Option<&'static str> {
        None
    }
}

impl<T: Element + 'static> Argument for Vec<T> {
    type Lent<'a> = Guarded<'a, T>;
    type Plain<'a> = &'a mut [T];

    fn lend(&mut self, name: &'static str) -> Guarded<'_, T> {
        Guarded::new(name, self)
    }

    fn plain(&mut self) -> &mut [T] {
        self
    }

    fn tell(&self, name: &'static str, facts: &mut Facts) {
        facts.buffer(name, self);
    }
}

pub struct Guarded<'a, T> {
    name: &'static str,
    content: &'a mut [T],
    cells: Vec<T>,
}

impl<'a, T: Element> Guarded<'a, T> {
    fn new(name: &'static str, content: &'a mut [T]) -> Guarded<'a, T> {
        let mut cells = Vec::with_capacity(content.len() + 2 * GUARDS);
        cells.resize(GUARDS, T::GUARD);
        cells.extend_from_slice(content);
        cells.resize(content.len() + 2 * GUARDS, T::GUARD);
        Guarded {
            name,
            content,
            cells,
        }
    }
}

impl<'a, T: Element> Lent for Guarded<'a, T> {
    type Part<'b>
        = &'b mut [T]
    where
        Self: 'b;

    fn part(&mut self) -> &mut [T] {
        &mut self.cells[GUARDS..GUARDS + self.content.len()]
    }

    fn end(self) -> Option<&'static str> {
        let (before, rest) = self.cells.split_at(GUARDS);
        let (content, behind) = rest.split_at(self.content.len());
        self.content.copy_from_slice(content);
        let whole = before.iter().chain(behind).all(|&cell| cell == T::GUARD);
        if whole {
            None
        } else {
            Some(self.name)
        }
    }
}

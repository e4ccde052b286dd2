//! The generator of a load for the bench.

use crate::doors;

/// A generator of numbers, held by whoever draws them: the one that program flowload makes its calls from, two numbers a call. Every s and w
/// is allowed; an s of zero, which the program refuses, stays zero.
///
/// ```
/// use flow::Generator;
///
/// let mut generator = Generator { s: 1, w: 0 };
/// let first = generator.next_number();
/// assert_eq!(generator, Generator { s: 1082269761, w: 362437 });
/// assert_eq!(first, 1082269761 + 362437);
///
/// // the program's first call: by the first number a removal, by the second one of 1,000 flows
/// let second = generator.next_number();
/// assert_eq!((first % 4, second % 1000), (2, 379));
/// ```
#[repr(C)]
#[derive(Clone, Debug, PartialEq, Eq)]
pub struct Generator {
    /// Stepped by xorshift64.
    pub s: u64,
    /// Grows by 362437 modulo 2^64.
    pub w: u64,
}

impl Generator {
    /// Steps s and w where they are held, then gives s + w modulo 2^64.
    pub fn next_number(&mut self) -> u64 {
        doors::generator_next(self)
    }
}

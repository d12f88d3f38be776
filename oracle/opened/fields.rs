//! A state as the protocol has it: words, in the order of its fields.

const NAN: u32 = 0x7fc0_0000;

/// A float's bits as they are written: NaNs are one.
#[inline]
pub fn written(x: f32) -> u32 {
    if x.is_nan() {
        NAN
    } else {
        x.to_bits()
    }
}

pub trait Fields: Sized {
    fn read(words: &mut dyn Iterator<Item = u32>) -> Self;
    fn write(&self, to: &mut dyn FnMut(u32));
}

/// A type whose state the protocol can show and set by hand.
pub trait State: Fields {
    /// What document 01 refuses in a state built by hand, by its stored numbers: 0 where that is nothing.
    fn refusal(&self) -> u32 {
        0
    }
}

/// The state in which every word is 0: switches off.
pub fn all_zero<T: Fields>() -> T {
    T::read(&mut std::iter::repeat(0))
}

/// The words of a value.
pub fn words(of: &impl Fields) -> Vec<u32> {
    let mut words = Vec::new();
    of.write(&mut |n| words.push(n));
    words
}

/// The value of the same words in another type: the same one with numbers of another kind.
pub fn recast<T: Fields>(of: &impl Fields) -> T {
    T::read(&mut words(of).into_iter())
}

impl Fields for f32 {
    fn read(words: &mut dyn Iterator<Item = u32>) -> Self {
        f32::from_bits(written(f32::from_bits(u32::read(words))))
    }
    fn write(&self, to: &mut dyn FnMut(u32)) {
        to(written(*self));
    }
}

impl Fields for u32 {
    fn read(words: &mut dyn Iterator<Item = u32>) -> Self {
        words.next().expect("the call's form has as many words as the state")
    }
    fn write(&self, to: &mut dyn FnMut(u32)) {
        to(*self);
    }
}

impl Fields for bool {
    fn read(words: &mut dyn Iterator<Item = u32>) -> Self {
        u32::read(words) == 1
    }
    fn write(&self, to: &mut dyn FnMut(u32)) {
        to(*self as u32);
    }
}

/// The switch, then the numbers: ignored, and shown as 0, where it is off.
impl<T: Fields> Fields for Option<T> {
    fn read(words: &mut dyn Iterator<Item = u32>) -> Self {
        let on = bool::read(words);
        let numbers = T::read(words);
        on.then_some(numbers)
    }
    fn write(&self, to: &mut dyn FnMut(u32)) {
        self.is_some().write(to);
        match self {
            Some(numbers) => numbers.write(to),
            None => all_zero::<T>().write(to),
        }
    }
}

impl<T: Fields, const N: usize> Fields for [T; N] {
    fn read(words: &mut dyn Iterator<Item = u32>) -> Self {
        std::array::from_fn(|_| T::read(words))
    }
    fn write(&self, to: &mut dyn FnMut(u32)) {
        for part in self {
            part.write(to);
        }
    }
}

impl<A: Fields, B: Fields> Fields for (A, B) {
    fn read(words: &mut dyn Iterator<Item = u32>) -> Self {
        (A::read(words), B::read(words))
    }
    fn write(&self, to: &mut dyn FnMut(u32)) {
        self.0.write(to);
        self.1.write(to);
    }
}

/// The result of a call that has none.
impl Fields for () {
    fn read(_: &mut dyn Iterator<Item = u32>) -> Self {}
    fn write(&self, _: &mut dyn FnMut(u32)) {}
}

/// `Fields` of a struct by its fields in order: generics in brackets, the type, the fields, and for those that the
/// protocol does not show a value that has them.
macro_rules! fields {
    ([$($generics:tt)*] $type:ty { $($field:ident)* } $(.. $rest:expr)?) => {
        impl<$($generics)*> Fields for $type {
            fn read(words: &mut dyn Iterator<Item = u32>) -> Self {
                Self { $($field: Fields::read(words),)* $(.. $rest)? }
            }
            fn write(&self, to: &mut dyn FnMut(u32)) {
                $(self.$field.write(to);)*
            }
        }
    };
}

//! What a map has as keys and values: words of 64 bits.

use std::num::NonZeroU64;

/// A value of a map: it is one word, or several, which a section never sees mixed with those of
/// another value. Tuples and arrays of [`Word`]s are such values, and each `Word` is one.
///
/// ```
/// use rcu::{Engine, MapSizes, Value};
///
/// #[derive(Clone, Copy, Debug, PartialEq)]
/// struct Route {
///     port: u32,
///     metric: u32,
///     bytes: u64,
/// }
///
/// impl Value for Route {
///     type Words = [u64; 2];
///
///     fn to_words(self) -> [u64; 2] {
///         [u64::from(self.port) << 32 | u64::from(self.metric), self.bytes]
///     }
///
///     fn of_words([first, bytes]: [u64; 2]) -> Route {
///         Route { port: (first >> 32) as u32, metric: first as u32, bytes }
///     }
/// }
///
/// # fn main() -> Result<(), Box<dyn std::error::Error>> {
/// let sizes = MapSizes { buckets: 1, entries: 1, seed: 0 };
/// let (_, map) = Engine::with_map::<char, Route>(sizes)?;
/// let route = Route { port: 80, metric: 1, bytes: 1 << 40 };
/// map.insert('a', route)?;
/// assert_eq!(map.find('a'), Some(route));
/// # Ok(())
/// # }
/// ```
pub trait Value: Copy {
    /// Its words: `[u64; N]`, of one or more.
    type Words: Words;

    /// The words of the value.
    fn to_words(self) -> Self::Words;

    /// The value of words that [`Value::to_words`] gave.
    fn of_words(words: Self::Words) -> Self;
}

/// So many words: `[u64; N]`, and nothing else.
pub trait Words: Copy + PartialEq + own::Sealed {
    /// How many they are.
    const COUNT: usize;

    /// As many zeros.
    const ZEROS: Self;
}

mod own {
    pub trait Sealed {}
}

impl<const N: usize> own::Sealed for [u64; N] {}

impl<const N: usize> Words for [u64; N] {
    const COUNT: usize = N;
    const ZEROS: [u64; N] = [0; N];
}

/// A value of one word.
pub trait Word: Copy {
    /// The word of the value.
    fn to_word(self) -> u64;

    /// The value of a word that [`Word::to_word`] gave.
    fn of_word(word: u64) -> Self;
}

/// A key of a map: it is one word, which is not 0. (So a `u64` is none: take a [`NonZeroU64`].)
pub trait Key: Copy {
    /// The word of the key. It has the same each time, and no other key has it.
    fn to_key(self) -> NonZeroU64;

    /// The key of a word that [`Key::to_key`] gave.
    fn of_key(word: NonZeroU64) -> Self;
}

impl<T: Word> Value for T {
    type Words = [u64; 1];

    #[inline]
    fn to_words(self) -> [u64; 1] {
        [self.to_word()]
    }

    #[inline]
    fn of_words([word]: [u64; 1]) -> T {
        T::of_word(word)
    }
}

impl<T: Word, const N: usize> Value for [T; N] {
    type Words = [u64; N];

    #[inline]
    fn to_words(self) -> [u64; N] {
        self.map(T::to_word)
    }

    #[inline]
    fn of_words(words: [u64; N]) -> [T; N] {
        words.map(T::of_word)
    }
}

macro_rules! values_of_tuples {
    ($($count:literal: $($part:ident)*;)*) => { $(
        #[allow(non_snake_case)] // a part has the name of its type
        impl<$($part: Word),*> Value for ($($part),*) {
            type Words = [u64; $count];

            #[inline]
            fn to_words(self) -> [u64; $count] {
                let ($($part),*) = self;
                [$($part.to_word()),*]
            }

            #[inline]
            fn of_words([$($part),*]: [u64; $count]) -> Self {
                ($($part::of_word($part)),*)
            }
        }
    )* };
}

values_of_tuples!(2: A B; 3: A B C; 4: A B C D; 5: A B C D E; 6: A B C D E F;);

macro_rules! words_of_integers {
    ($($kind:ty)*) => { $(
        impl Word for $kind {
            #[inline]
            fn to_word(self) -> u64 {
                self as u64
            }

            #[inline]
            fn of_word(word: u64) -> $kind {
                word as $kind
            }
        }
    )* };
}

/// The key is the number's bits and 1.
macro_rules! keys_of_integers {
    ($($kind:ty as $bits:ty),*) => { $(
        impl Key for $kind {
            #[inline]
            fn to_key(self) -> NonZeroU64 {
                NonZeroU64::MIN.saturating_add(u64::from(self as $bits))
            }

            #[inline]
            fn of_key(word: NonZeroU64) -> $kind {
                (word.get() - 1) as $kind
            }
        }
    )* };
}

words_of_integers!(u8 u16 u32 u64 usize i8 i16 i32 i64 isize);
keys_of_integers!(u8 as u8, u16 as u16, u32 as u32, i8 as u8, i16 as u16, i32 as u32);

impl Word for bool {
    #[inline]
    fn to_word(self) -> u64 {
        u64::from(self)
    }

    #[inline]
    fn of_word(word: u64) -> bool {
        word != 0
    }
}

impl Word for char {
    #[inline]
    fn to_word(self) -> u64 {
        u64::from(self)
    }

    #[inline]
    fn of_word(word: u64) -> char {
        char::from_u32(word as u32).expect("the word is a character's")
    }
}

impl Key for char {
    #[inline]
    fn to_key(self) -> NonZeroU64 {
        u32::from(self).to_key()
    }

    #[inline]
    fn of_key(word: NonZeroU64) -> char {
        char::of_word(u64::from(u32::of_key(word)))
    }
}

impl Key for NonZeroU64 {
    #[inline]
    fn to_key(self) -> NonZeroU64 {
        self
    }

    #[inline]
    fn of_key(word: NonZeroU64) -> NonZeroU64 {
        word
    }
}

//! The numbers of `include/llobatelh.h`, under their names there without `LLOBATELH_`. `build.rs` reads them from it.
//!
//! ```
//! use llobatelh::header;
//!
//! assert_eq!(header::book_key(header::SLOTS_MOST), header::book_answer(0));
//! ```

include!(concat!(env!("OUT_DIR"), "/header.rs"));

/// A number that has to fit in a byte.
pub(crate) const fn byte(number: u64) -> u8 {
    assert!(number <= u8::MAX as u64);
    number as u8
}

/// A number where the archive of this header never has it.
#[cold]
#[inline(never)]
pub(crate) fn of_another_interface(number: u64) -> ! {
    unreachable!("an archive of another interface: it says {number}")
}

/// An enum whose values have numbers of the header. It has 4 bytes: beside a [`Refusal`](crate::Refusal) of so many a `Result` has no gap
/// before its answer, and the compiler can do without copies of it.
macro_rules! numbered {
    ($(#[$about:meta])* $name:ident { $($(#[$doc:meta])* $value:ident = $number:ident,)* }) => {
        $(#[$about])*
        #[derive(Clone, Copy, Debug, PartialEq, Eq, PartialOrd, Ord, Hash)]
        #[repr(u32)]
        pub enum $name {
            $($(#[$doc])* $value = $crate::header::byte($crate::header::$number) as u32,)*
        }

        impl $name {
            /// All of them, by their numbers.
            pub const ALL: [$name; [$($crate::header::$number),*].len()] = [$($name::$value),*];

            /// Its number.
            #[inline]
            pub const fn number(self) -> u8 {
                self as u8
            }

            /// The one with this number.
            #[inline]
            pub const fn from_number(number: u64) -> Option<$name> {
                match number {
                    $($crate::header::$number => Some($name::$value),)*
                    _ => None,
                }
            }
        }
    };
}
pub(crate) use numbered;

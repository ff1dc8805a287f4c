//! Names for the numbers of fates and refusals, and the error that a refusal is.

use std::error::Error;
use std::fmt;

/// The error of `try_from`: a number that is no [`Fate`]'s, or no [`Refusal`]'s.
#[derive(Clone, Copy, Debug, PartialEq, Eq, Hash)]
pub struct Unnamed(pub u64);

impl fmt::Display for Unnamed {
    fn fmt(&self, out: &mut fmt::Formatter<'_>) -> fmt::Result {
        write!(out, "{} has no name here", self.0)
    }
}

impl Error for Unnamed {}

/// An enum whose values have the numbers of document 01, with its words, and the ways there and back.
macro_rules! named {
    ($(#[$about:meta])* $name:ident { $($value:ident = $number:literal, $words:literal;)* }) => {
        $(#[$about])*
        #[derive(Clone, Copy, Debug, PartialEq, Eq, Hash)]
        #[repr(u64)]
        pub enum $name {
            $(#[doc = $words] $value = $number,)*
        }

        impl $name {
            /// All of them, by their numbers.
            pub const ALL: &'static [$name] = &[$($name::$value),*];

            /// What it says, in words.
            pub const fn words(self) -> &'static str {
                match self {
                    $($name::$value => $words,)*
                }
            }

            /// Its number.
            pub const fn number(self) -> u64 {
                self as u64
            }
        }

        impl From<$name> for u64 {
            fn from(value: $name) -> u64 {
                value.number()
            }
        }

        impl TryFrom<u64> for $name {
            type Error = Unnamed;

            fn try_from(number: u64) -> Result<$name, Unnamed> {
                match number {
                    $($number => Ok($name::$value),)*
                    _ => Err(Unnamed(number)),
                }
            }
        }

        impl fmt::Display for $name {
            fn fmt(&self, out: &mut fmt::Formatter<'_>) -> fmt::Result {
                out.write_str(self.words())
            }
        }
    };
}

named! {
    /// The fate of a job, which [`plan`](crate::plan) gives as its number; `Fate::try_from` makes it a fate. A place after
    /// the last job holds 0, which is no fate.
    Fate {
        Planned = 1, "planned";
        LateAlone = 2, "could not end by its termination even if it ran alone at top speed";
        Deadlock = 3, "taken out of a ring of waiting jobs";
        NoRatio = 4, "its chain gives no worth";
        OutOfTime = 5, "with its chain, some entry would end after its termination";
        OutOfBudget = 6, "with its chain, the plan would cost more than the budget";
    }
}

named! {
    /// Why a call refuses: what the number of a [`Refused`] means.
    Refusal {
        NoShape = 1, "the line has none of the four shapes: letter, field count, an empty field, a byte that is no digit, \
            a leading zero, a 17th digit, no line feed at the end";
        OutOfRange = 2, "a number is outside its range";
        OutOfPlace = 3, "the line may not stand here or its first number does not rise; \
            or the text ends before an F has been read";
        TooMany = 4, "a 17th F or a 65th J";
        CriticalAfterTermination = 5, "critical is after termination";
        UnknownJob = 6, "H names a job that is not in the table";
        RequestsOwn = 7, "the holder requests the resource it holds";
        NoRoom = 8, "a lent buffer is too small";
        UnknownModel = 9, "a cost model other than 1, 2, 3";
        TooMuchAllocated = 10, "an allocation above 1,000,000";
    }
}

/// A refusal, as a call gives it: the error of every call. It prints number, line and words.
#[derive(Clone, Copy, Debug, PartialEq, Eq, Hash)]
pub struct Refused {
    /// 1 to 10; [`refusal`](Refused::refusal) gives its name.
    pub number: u64,
    /// The line of the text that is meant, counted from 1, or the one that a table's record would have had; 1 for the
    /// budget beside a table; 0 where no line is meant.
    pub line: u64,
}

impl Refused {
    /// The refusal by its name; every refusal of a call has one.
    pub fn refusal(&self) -> Option<Refusal> {
        Refusal::try_from(self.number).ok()
    }
}

impl fmt::Display for Refused {
    fn fmt(&self, out: &mut fmt::Formatter<'_>) -> fmt::Result {
        write!(out, "refused {}", self.number)?;
        if self.line != 0 {
            write!(out, ", line {}", self.line)?;
        }
        match self.refusal() {
            Some(refusal) => write!(out, ": {refusal}"),
            None => Ok(()),
        }
    }
}

impl Error for Refused {}

//! The operations.

use crate::bindings::operations;
use core::fmt;

macro_rules! declare {
    ($($name:ident)*) => {
        /// An operation of the 8086, by its name in the manual.
        ///
        /// ```
        /// use fsq::Operation;
        ///
        /// // REFERENCE 2: MOV is 0 and SALC 98; JZ is JE.
        /// assert_eq!((Operation::MOV.number(), Operation::SALC.number()), (0, 98));
        /// assert_eq!(Operation::ALL[98].name(), "SALC");
        /// assert_eq!("jz".parse(), Ok(Operation::JE));
        /// assert_eq!(Operation::JE.to_string(), "JE");
        /// ```
        #[allow(missing_docs, clippy::upper_case_acronyms)]
        #[derive(Clone, Copy, Debug, PartialEq, Eq, Hash)]
        #[repr(u8)]
        #[non_exhaustive]
        pub enum Operation { $($name),* }

        impl Operation {
            /// All of them, in the order of their numbers.
            pub const ALL: [Operation; 99] = [$(Operation::$name),*];

            /// The name, as `MOV`.
            pub fn name(self) -> &'static str {
                const NAMES: [&str; 99] = [$(stringify!($name)),*];
                NAMES[self as usize]
            }
        }
    };
}

operations!(declare);

impl Operation {
    /// The number in a show file, 0 to 98.
    pub fn number(self) -> u8 {
        self as u8
    }
}

impl fmt::Display for Operation {
    fn fmt(&self, f: &mut fmt::Formatter<'_>) -> fmt::Result {
        f.write_str(self.name())
    }
}

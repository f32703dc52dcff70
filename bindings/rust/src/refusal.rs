use std::fmt;

/// Makes the enum and its functions of a table with a line for each refusal: its case, its number and its sentence.
macro_rules! refusals {
    ($($case:ident = $number:literal, $sentence:literal;)+) => {
        /// Why a text is not read, a network not written or not run, or no report made. It prints as its sentence.
        #[derive(Clone, Copy, Debug, PartialEq, Eq, Hash)]
        #[non_exhaustive]
        #[repr(u32)]
        pub enum Refusal {
            $(#[doc = concat!(stringify!($number), ": ", $sentence)] $case = $number,)+
        }

        impl Refusal {
            /// All refusals, by rising number.
            pub const ALL: &'static [Refusal] = &[$(Refusal::$case),+];

            /// The refusal of a number, where there is one.
            pub const fn from_number(number: u32) -> Option<Refusal> {
                match number {
                    $($number => Some(Refusal::$case),)+
                    _ => None,
                }
            }

            /// What is wrong, in plain words.
            pub const fn sentence(self) -> &'static str {
                match self {
                    $(Refusal::$case => $sentence,)+
                }
            }
        }
    };
}

refusals! {
    TooFewCells = 1, "too few cells are lent";
    TextTooLong = 2, "the text is over 32,768 bytes";
    HighByte = 3, "the text has a byte of 128 or more";
    MissingName = 4, ".model lacks a name, or .latch has fewer than two";
    Unsupported = 5, "a statement that starts with a dot is not supported";
    SizePassed = 6, "there are over 256 inputs, 256 outputs, 1,024 gates or 16,384 pins";
    SecondModel = 7, "there is a second .model before any .end";
    EndBeforeModel = 8, ".end comes before any .model";
    NamesEmpty = 9, ".names has no names";
    DefinedTwice = 10, "a name is defined twice";
    Undefined = 11, "an output, a latch's input or a cover's input is not defined";
    WrongCubeLine = 12, "a cube line is wrong: its tokens, its columns or its output";
    OutputsDiffer = 13, "the cube lines of a cover differ in output";
    CombinationalLoop = 14, "there is a combinational loop";
    NotANetwork = 20, "what is lent is no network";
    WideExclusive = 21, "an Xor or Xnor of any number of inputs has over 12";
    TextDoesNotFit = 22, "the text does not fit into the output slice or into 32,768 bytes";
    NotSorted = 29, "a combinational gate has a gate input whose number is not lower than its own";
    OtherFlipFlop = 30, "a flip-flop has another enable or reset";
    WrongRows = 31, "a row has the wrong length, another character or no LF, or the output rows do not fit";
    WrongSheet = 32, "a sheet line is missing, misformed or left over, or the sheet is over 40,960 bytes";
    NoOutput = 33, "the network has no output";
    WrongStart = 34, "a latch's start value is not 0, 1, 2 or 3";
}

impl Refusal {
    /// The refusal of an answer's `refused`, which is 0 on success.
    ///
    /// # Errors
    ///
    /// The refusal of every number but 0.
    ///
    /// # Panics
    ///
    /// Where no refusal has the number. The library answers no such number.
    pub fn of(refused: u32) -> Result<(), Refusal> {
        match refused {
            0 => Ok(()),
            number => Err(Refusal::from_number(number).expect("the library answers the numbers of refusals")),
        }
    }

    /// The number: 1 to 14 and 34 of reading, 20 to 22 of writing, 20 and 29 to 31 of running, 2 to 14 and 31 to 34 of a report.
    pub const fn number(self) -> u32 {
        self as u32
    }
}

impl fmt::Display for Refusal {
    fn fmt(&self, f: &mut fmt::Formatter<'_>) -> fmt::Result {
        f.write_str(self.sentence())
    }
}

impl std::error::Error for Refusal {}

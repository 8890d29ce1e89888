//! A model of the word classifier and of the recorder, and the expected output of the programs that
//! use them.
//!
//! It shares no code with them. How independent it is: the rules of the base were first written here
//! from docs/RULES.md and the RISC-V manuals. Later somebody who had seen neither docs/RULES.md nor
//! our specifications wrote a second model from the papers behind docs/RULES.md alone, compared the
//! two, and read this one against those papers sentence by sentence: 181 million events with whole
//! states, 53 million words, 20 million rows and 400,000 pairs of lists were equal, and of the text
//! seven comments had to be mended. What is added to the base is written here from the papers
//! directly, by somebody who hasn't looked at our specifications of it.

pub mod access;
pub mod check_dump;
pub mod classifier;
pub mod classify;
pub mod cycles;
pub mod digest;
pub mod dump;
mod encode;
pub mod expected;
pub mod printed;
mod program;
pub mod recorder;
pub mod registers;
pub mod replay;
pub mod run;

//! A second program for codes with forbidden successors.
//!
//! It was written from the papers, to be held against the verified program:
//! the definitions of words, bans, messages, delay and refusals, and the pair
//! procedure of Gönenç. Only [`table`] takes its shape from that program. The
//! verdict is found in two ways that share nothing but the code itself:
//! [`brute`] lists sequences and messages as the definitions name them and
//! suits tiny codes; [`pairs`] walks pairs of places from [`rivals`] and suits
//! every code. [`bans`] that look two words back are looked up by the first
//! way as they stand; for the second [`copies`] turns them into copies of
//! words.
//!
//! [`next`] names the first word of a message that is still coming in, from
//! as many symbols as the delay.
//!
//! [`split`] reads the words of a text, whose letters stand for symbols by the
//! [`classes`] that a class sheet gives, or by the built-in ones of Turkish
//! [`letters`].
//!
//! [`generate`] makes random and damaged inputs, and [`compare`] holds another
//! program's [`operations`] against the reference on them. [`cases`] has the
//! codes that the papers give, [`small`] every tiny one, and [`turkish`] the
//! built-in one.

pub mod bans;
pub mod brute;
pub mod cases;
pub mod classes;
pub mod code;
pub mod compare;
pub mod copies;
pub mod encode;
pub mod generate;
pub mod input;
pub mod largest;
pub mod letters;
pub mod next;
pub mod operations;
pub mod pairs;
pub mod print;
pub mod random;
pub mod read;
pub mod rivals;
pub mod sheet;
pub mod small;
pub mod split;
pub mod table;
pub mod turkish;
pub mod verdict;

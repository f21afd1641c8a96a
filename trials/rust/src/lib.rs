//! The modular group by other ways than the engine's: words reduced by erasing, elements as matrices, products made factor by factor, an automaton that
//! reads all products, and the images of these modulo 7. And what the trials lend to the library.

pub mod automaton;
pub mod element;
pub mod erasing;
pub mod lending;
pub mod listing;
pub mod residues;
pub mod walk;
pub mod words;

//! An independent model of the register and the player, written from the rules in docs/.

pub mod player;
pub mod random;
pub mod register;
pub mod scripts;

//! All tests as one program: what they share, the model among it, is compiled once.

mod api;
mod armour;
mod armour_damaged;
mod changing;
mod debug;
mod editing;
mod example;
mod halves;
mod interface;
mod keys_writing;
mod marked;
mod places;
mod programs;
mod reading;
mod rsa;
mod scalars;
mod secrets;
mod sentences;
mod settings;
mod several;
mod support;
mod traits;
mod writing;

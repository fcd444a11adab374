#![doc = include_str!("../README.md")]
#![no_std]
#![deny(unsafe_code)]
#![warn(missing_docs)]

#[cfg(feature = "alloc")]
extern crate alloc;
#[cfg(feature = "std")]
extern crate std;

#[macro_use]
mod accepted;
pub mod armour;
#[allow(unsafe_code, missing_docs)]
mod c;
mod cause;
mod error;
mod field;
mod frame;
mod handed;
mod header;
mod image;
mod judge;
mod key;
mod kind;
mod lent;
mod names;
pub mod settings;
mod several;
mod walk;
mod write;

pub use error::Error;
pub use field::Field;
pub use header::Header;
pub use image::Image;
pub use key::{Key, Keys};
pub use kind::ErrorKind;
pub use lent::{set_comment, LentImage};
pub use names::{Algorithm, Cipher, EcdsaCurve, KdfAlg};
#[cfg(feature = "alloc")]
pub use several::write_keys;
pub use several::{write_keys_in, KeyPlaces, KeyRef};
pub use write::{write_encrypted, write_plain, write_rsa, Checkint, EncryptedKey, PlainKey, RsaKey};

/// The length of the longest image: a longer one is refused with number 11. Of a text it is what it carries that counts.
pub const MAX_IMAGE_LEN: usize = 65_535;

/// The most keys of an image.
pub const MAX_KEYS: usize = 16;

/// The C interface's own numbers, for the tests.
#[doc(hidden)]
pub mod raw {
    pub use crate::c::{add_key, add_rsa, change_comment, change_comment_of, remove_key};
    pub use crate::c::{export, import, read, read_header, read_key, read_section, rewrite};
    pub use crate::c::{read_setting, store_get, store_move, store_put, write_setting};
    pub use crate::c::{write_encrypted, write_keys, write_plain, write_rsa};
    pub use crate::c::{Image, Key, Part, Reply, Setting};
}

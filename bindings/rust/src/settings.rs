//! Reconnect settings: a kind of key and a delay for each device, in a store of 128 bytes.
//!
//! A [`Setting`] by itself is a record of 4 bytes, a number of 32 bits, the highest first: 4 bits version, 4 bits kind, 24 bits delay.
//! Its [`Version`] says whether the delay is in seconds or in milliseconds; who reads one gets a [`Duration`], and not the version. A
//! [`Store`] has such a record for each device from 0 to 31, and a place whose four bytes are zero is unused. Nothing is rounded: a
//! delay that a version can't hold exactly is refused, and a refusal changes no byte.
//!
//! ```
//! use core::time::Duration;
//! use saltorchard::settings::{Setting, Store, Version, STORE_LEN};
//! use saltorchard::Algorithm;
//!
//! let mut bytes = [0; STORE_LEN]; // no place is used yet
//! let mut store = Store::new(&mut bytes);
//! let oven = Setting { kind: Algorithm::Ed25519, delay: Duration::from_secs(90) };
//! store.put(7, Version::V1, oven)?;
//! store.move_to_v2()?; // in milliseconds now, and nobody who reads it sees a difference
//! assert_eq!((store.get(7)?, store.get(8)?), (Some(oven), None));
//! # Ok::<(), saltorchard::Error>(())
//! ```

use core::fmt;
use core::time::Duration;

use crate::c;
use crate::handed::{no_device, of_delay};
use crate::{Algorithm, Error};

/// The bytes of a setting's record.
pub const SETTING_LEN: usize = 4;

/// The bytes of a store.
pub const STORE_LEN: usize = 128;

/// How many devices a store has places for; the last is one less.
pub const DEVICES: u64 = 32;

/// How a record holds its delay.
///
/// ```
/// use core::time::Duration;
/// use saltorchard::settings::{Setting, Version};
/// use saltorchard::Algorithm;
///
/// let setting = Setting { kind: Algorithm::Rsa, delay: Duration::from_secs(1) };
/// assert_eq!(setting.to_bytes(Version::V1)?, [0x14, 0, 0, 1]);
/// assert_eq!(setting.to_bytes(Version::V2)?, [0x24, 0, 0x03, 0xe8]);
/// # Ok::<(), saltorchard::Error>(())
/// ```
#[derive(Clone, Copy, Debug, PartialEq, Eq, Hash, PartialOrd, Ord)]
#[non_exhaustive]
pub enum Version {
    /// In seconds: whole ones, up to 16,777,215, which are 194 days.
    V1 = 1,
    /// In milliseconds: whole ones, up to 16,777,215, which are less than 4 hours and 40 minutes.
    V2 = 2,
}

/// How a controller reconnects.
///
/// ```
/// use core::time::Duration;
/// use saltorchard::settings::Setting;
/// use saltorchard::{Algorithm, EcdsaCurve};
///
/// let kind = Algorithm::Ecdsa { curve: EcdsaCurve::NistP256 };
/// let setting = Setting { kind, delay: Duration::from_millis(250) };
/// assert_eq!(Setting::read(&[0x21, 0, 0, 250])?, setting);
/// # Ok::<(), saltorchard::Error>(())
/// ```
#[derive(Clone, Copy, Debug, PartialEq, Eq, Hash)]
pub struct Setting {
    /// The kind of its key.
    pub kind: Algorithm,
    /// The delay: of one that is read a whole number of milliseconds.
    pub delay: Duration,
}

impl Setting {
    /// Reads a record by itself.
    ///
    /// Refused, in this order: a length other than 4 (1), another version than 1 and 2 (4), another kind than the five of
    /// [`Algorithm`] (4). It has no empty form: four zero bytes are of version 0.
    ///
    /// ```
    /// use saltorchard::settings::Setting;
    ///
    /// let refused = |record: &[u8]| Setting::read(record).unwrap_err().to_string();
    /// assert_eq!(refused(&[0; 3]), "Refusal 1 (Length): the setting has 3 bytes, and 4 are needed.");
    /// assert_eq!(
    ///     refused(&[0; 4]),
    ///     "Refusal 4 (AlgorithmUnknown): the setting has version 0, and no such version is known here."
    /// );
    /// ```
    pub fn read(record: &[u8]) -> Result<Self, Error> {
        let answer = c::read_setting(record);
        Self::answered(answer, |number| Error::of_record(record, number))?.ok_or_else(Error::unknown_code)
    }

    /// The record of this setting in a version. A delay that it can't hold exactly is refused (11): in version 1 it must be whole
    /// seconds, in version 2 whole milliseconds, and in each at most 16,777,215 of them.
    ///
    /// ```
    /// use core::time::Duration;
    /// use saltorchard::settings::{Setting, Version};
    /// use saltorchard::Algorithm;
    ///
    /// let setting = Setting { kind: Algorithm::Ed25519, delay: Duration::from_millis(1_500) };
    /// assert_eq!(setting.to_bytes(Version::V2)?, [0x20, 0, 0x05, 0xdc]);
    /// assert_eq!(setting.to_bytes(Version::V1).unwrap_err().number(), 11);
    /// # Ok::<(), saltorchard::Error>(())
    /// ```
    pub fn to_bytes(self, version: Version) -> Result<[u8; SETTING_LEN], Error> {
        let mut record = [0; SETTING_LEN];
        let reply = c::write_setting(version as u8, self.kind.code(), self.milliseconds(), &mut record);
        Error::set(reply, |number| of_delay(version, self.delay, number))?;
        Ok(record)
    }

    /// The setting that was answered, none of an unused place, or the refusal.
    fn answered(answer: c::Setting, refusal: impl FnOnce(u64) -> Error) -> Result<Option<Self>, Error> {
        match answer {
            c::Setting { number: 0, used: 0, .. } => Ok(None),
            c::Setting { number: 0, kind, milliseconds, .. } => {
                let kind = Algorithm::from_code(kind).ok_or_else(Error::unknown_code)?;
                Ok(Some(Self { kind, delay: Duration::from_millis(milliseconds) }))
            }
            c::Setting { number, .. } => Err(refusal(number)),
        }
    }

    /// The delay in milliseconds. One that isn't a whole number of them, or is more than 64 bits can say, becomes a number that no
    /// version takes: so it is refused, and in its place among the refusals.
    fn milliseconds(self) -> u64 {
        match u64::try_from(self.delay.as_millis()) {
            Ok(milliseconds) if self.delay.subsec_nanos() % 1_000_000 == 0 => milliseconds,
            _ => u64::MAX,
        }
    }
}

/// A lent store: a place for each device from 0 to 31.
///
/// Bytes of any length may be a store's, and are refused (1) where they aren't 128:
///
/// ```
/// use saltorchard::settings::Store;
///
/// let mut file = vec![0; 130];
/// let refusal = Store::try_from(&mut file[..]).unwrap_err();
/// assert_eq!(refusal.to_string(), "Refusal 1 (Length): the store has 130 bytes, and 128 are needed.");
/// assert!(Store::try_from(&mut file[..128]).is_ok());
/// ```
pub struct Store<'a> {
    bytes: &'a mut [u8; STORE_LEN],
}

impl<'a> Store<'a> {
    /// The store that these bytes are, whatever they are: a place is looked at when it is asked for.
    ///
    /// ```
    /// use saltorchard::settings::{Store, STORE_LEN};
    ///
    /// let mut bytes = [0; STORE_LEN];
    /// bytes[4] = 0x30;
    /// let store = Store::new(&mut bytes);
    /// assert_eq!(store.get(0), Ok(None));
    /// assert_eq!(store.get(1).unwrap_err().number(), 4);
    /// ```
    pub fn new(bytes: &'a mut [u8; STORE_LEN]) -> Self {
        Self { bytes }
    }

    /// The store's bytes.
    ///
    /// ```
    /// use saltorchard::settings::{Store, STORE_LEN};
    ///
    /// assert_eq!(Store::new(&mut [7; STORE_LEN]).as_bytes(), &[7; STORE_LEN]);
    /// ```
    pub fn as_bytes(&self) -> &[u8; STORE_LEN] {
        self.bytes
    }

    /// A device's setting; none where its place is unused. Other places aren't looked at.
    ///
    /// Refused, in this order: a device above 31 (1), a used place of another version (4), or of another kind (4).
    ///
    /// ```
    /// use saltorchard::settings::{Store, STORE_LEN};
    ///
    /// let mut bytes = [0; STORE_LEN];
    /// bytes[4 * 9] = 0x30;
    /// let store = Store::new(&mut bytes);
    /// assert_eq!(store.get(32).unwrap_err().number(), 1);
    /// let refusal = store.get(9).unwrap_err();
    /// assert_eq!((refusal.number(), refusal.device()), (4, Some(9)));
    /// assert_eq!(
    ///     refusal.to_string(),
    ///     "Refusal 4 (AlgorithmUnknown): the setting of device 9 has version 3, and no such version is known here."
    /// );
    /// ```
    pub fn get(&self, device: u64) -> Result<Option<Setting>, Error> {
        Setting::answered(c::store_get(self.bytes, device), |number| match number {
            1 => Error::handed_in(number, no_device(device)),
            _ => Error::of_place(self.bytes, device, number),
        })
    }

    /// Writes a device's record in place of what stood there, whatever that was. Other places stay, and aren't looked at.
    ///
    /// Refused, in this order: a device above 31 (1), a delay that the version can't hold exactly (11), as
    /// [`Setting::to_bytes`] does. Then no byte changes.
    ///
    /// ```
    /// use core::time::Duration;
    /// use saltorchard::settings::{Setting, Store, Version, STORE_LEN};
    /// use saltorchard::Algorithm;
    ///
    /// let mut bytes = [0; STORE_LEN];
    /// let mut store = Store::new(&mut bytes);
    /// let setting = Setting { kind: Algorithm::Rsa, delay: Duration::from_micros(1_000_500) };
    /// assert_eq!(
    ///     store.put(3, Version::V2, setting).unwrap_err().to_string(),
    ///     "Refusal 11 (TooLarge): of what was handed in, the delay isn't a whole number of milliseconds."
    /// );
    /// store.put(3, Version::V2, Setting { delay: Duration::from_secs(1), ..setting })?;
    /// assert_eq!(bytes[12..16], [0x24, 0, 0x03, 0xe8]);
    /// # Ok::<(), saltorchard::Error>(())
    /// ```
    pub fn put(&mut self, device: u64, version: Version, setting: Setting) -> Result<(), Error> {
        let reply = c::store_put(self.bytes, device, version as u8, setting.kind.code(), setting.milliseconds());
        Error::set(reply, |number| match number {
            1 => no_device(device),
            _ => of_delay(version, setting.delay, number),
        })
    }

    /// Moves the store to version 2: every used place is then in version 2, with its kind and its delay, and every unused one stays so.
    /// [`get`](Self::get) answers what it did.
    ///
    /// Refused, in this order: a used place of another version or kind, whichever it is (4); one of version 1 whose delay is above
    /// 16,777,215 milliseconds, whichever it is (11). Then no byte changes, and the refusal tells the first such place.
    ///
    /// ```
    /// use saltorchard::settings::{Store, STORE_LEN};
    ///
    /// let mut bytes = [0; STORE_LEN];
    /// bytes[..4].copy_from_slice(&[0x10, 0, 0, 2]);
    /// bytes[8..12].copy_from_slice(&[0x10, 0, 0x4e, 0x20]);
    /// let mut store = Store::new(&mut bytes);
    /// let refusal = store.move_to_v2().unwrap_err();
    /// assert_eq!((refusal.number(), refusal.device()), (11, Some(2)));
    /// assert_eq!(
    ///     refusal.to_string(),
    ///     "Refusal 11 (TooLarge): the setting of device 2 has a delay of 20,000 seconds, \
    ///      and version 2 has at most 16,777,215 milliseconds."
    /// );
    /// bytes[8..12].fill(0);
    /// Store::new(&mut bytes).move_to_v2()?;
    /// assert_eq!(bytes[..4], [0x20, 0, 0x07, 0xd0]);
    /// # Ok::<(), saltorchard::Error>(())
    /// ```
    pub fn move_to_v2(&mut self) -> Result<(), Error> {
        match c::store_move(self.bytes).number {
            0 => Ok(()),
            number => Err(Error::of_store(self.bytes, number)),
        }
    }
}

impl<'a> TryFrom<&'a mut [u8]> for Store<'a> {
    type Error = Error;

    /// As [`Store::new`]; a length other than 128 is refused with 1.
    fn try_from(bytes: &'a mut [u8]) -> Result<Self, Error> {
        let has = bytes.len();
        <&mut [u8; STORE_LEN]>::try_from(bytes).map(Self::new).map_err(|_| Error::store_of_length(has))
    }
}

/// The store's bytes.
impl AsRef<[u8]> for Store<'_> {
    fn as_ref(&self) -> &[u8] {
        self.bytes
    }
}

/// How many places are used.
impl fmt::Debug for Store<'_> {
    fn fmt(&self, f: &mut fmt::Formatter<'_>) -> fmt::Result {
        let used = self.bytes.chunks_exact(SETTING_LEN).filter(|place| !crate::judge::zeros_only(place)).count();
        f.debug_struct("Store").field("used", &used).finish_non_exhaustive()
    }
}

use crate::{raw, Refusal};

/// What the settings cookie keeps.
///
/// ```
/// use wentuhoro::PersistentSettings;
///
/// let settings = PersistentSettings::V1 { leaf_fanout: 1024 };
/// let cookie = settings.serialize();
/// assert_eq!(PersistentSettings::deserialize(&cookie)?, settings);
/// assert!(settings.verify(&cookie).is_ok());
///
/// let other = PersistentSettings::V1 { leaf_fanout: 512 };
/// assert_eq!(other.verify(&cookie).unwrap_err().kind.number(), 7);
/// # Ok::<(), wentuhoro::Refusal>(())
/// ```
#[derive(Clone, Copy, Debug, PartialEq, Eq, Hash)]
pub enum PersistentSettings {
    V1 { leaf_fanout: u64 },
}

impl PersistentSettings {
    /// The 64 bytes of the cookie.
    pub fn serialize(&self) -> [u8; 64] {
        let PersistentSettings::V1 { leaf_fanout } = *self;
        let mut cookie = [0; 64];
        let status = unsafe { raw::wentuhoro_cookie_write(leaf_fanout, cookie.as_mut_ptr(), cookie.len()) };
        Refusal::unless_granted(status).expect("a cookie of 64 bytes is written");
        cookie
    }

    /// Bytes after the first 64 are not looked at. Refuses fewer with 1, another check with 4, another version with 6.
    pub fn deserialize(cookie: &[u8]) -> Result<PersistentSettings, Refusal> {
        let mut leaf_fanout = 0;
        Refusal::unless_granted(unsafe { raw::wentuhoro_cookie_read(cookie.as_ptr(), cookie.len(), &mut leaf_fanout, 1) })?;
        Ok(PersistentSettings::V1 { leaf_fanout })
    }

    /// Whether the cookie has these settings. Refuses as [`deserialize`](Self::deserialize) does, and another fanout with 7.
    pub fn verify(&self, cookie: &[u8]) -> Result<(), Refusal> {
        let PersistentSettings::V1 { leaf_fanout } = *self;
        Refusal::unless_granted(unsafe { raw::wentuhoro_cookie_verify(cookie.as_ptr(), cookie.len(), leaf_fanout) })
    }
}

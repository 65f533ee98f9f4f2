use crate::Refusal;
use std::fmt;

/// An attribute set: for each key 0 to 15 nothing, null, or a value 1 to 255.
///
/// ```
/// use indovalump::Attrs;
/// let bold = Attrs::new().with(0, 1)?;
/// assert_eq!(bold.get(0), Some(1));
/// assert_eq!(bold.get(1), None);
/// assert_eq!(bold.to_string(), "{0=1}");
/// assert!(bold.with(16, 1).is_err());
/// # Ok::<(), indovalump::Refusal>(())
/// ```
#[derive(Debug, Clone, Copy, PartialEq, Eq, Default)]
pub struct Attrs {
    pub(crate) mask: u16,
    pub(crate) values: [u8; 16],
}

impl Attrs {
    /// The empty set.
    pub fn new() -> Self {
        Self::default()
    }

    /// The set with one key more, or another value for it. Value 0 is null: the key is to be taken away.
    pub fn with(mut self, key: u32, value: u32) -> Result<Self, Refusal> {
        if key > 15 || value > 255 {
            return Err(Refusal::Key);
        }
        self.mask |= 1 << key;
        self.values[key as usize] = value as u8;
        Ok(self)
    }

    /// The set with null for a key.
    pub fn null(self, key: u32) -> Result<Self, Refusal> {
        self.with(key, 0)
    }

    /// The value of a key, 0 for null; none where the set does not name it.
    pub fn get(&self, key: u32) -> Option<u32> {
        (key < 16 && self.mask & (1 << key) != 0).then(|| self.values[key as usize] as u32)
    }

    /// Whether it names no key.
    pub fn is_empty(&self) -> bool {
        self.mask == 0
    }

    /// Its keys and values, by ascending key.
    pub fn iter(&self) -> impl Iterator<Item = (u32, u32)> + '_ {
        (0..16).filter_map(|k| self.get(k).map(|v| (k, v)))
    }

    /// From a key mask and four numbers of four values each; the values of absent keys are dropped.
    pub(crate) fn from_words(mask: u32, words: &[u32]) -> Self {
        let mut set = Attrs { mask: mask as u16, values: [0; 16] };
        for k in 0..16 {
            if set.mask & (1 << k) != 0 {
                set.values[k] = (words[k / 4] >> (k % 4 * 8)) as u8;
            }
        }
        set
    }

    pub(crate) fn to_words(self) -> [u32; 5] {
        let v = &self.values;
        let four = |i: usize| u32::from_le_bytes([v[i], v[i + 1], v[i + 2], v[i + 3]]);
        [self.mask as u32, four(0), four(4), four(8), four(12)]
    }
}

impl fmt::Display for Attrs {
    fn fmt(&self, f: &mut fmt::Formatter<'_>) -> fmt::Result {
        f.write_str("{")?;
        for (i, (k, v)) in self.iter().enumerate() {
            let gap = if i > 0 { " " } else { "" };
            match v {
                0 => write!(f, "{gap}{k}=null")?,
                _ => write!(f, "{gap}{k}={v}")?,
            }
        }
        f.write_str("}")
    }
}

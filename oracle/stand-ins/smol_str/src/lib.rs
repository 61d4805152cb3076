//! Stands in for the crate smol_str: an immutable text that is cheap to clone.
//! No decoding logic is in it; every operation is that of the `str` inside.
//! Short texts are kept without an allocation, as the real crate keeps them, so that a comparison of speed is fair.

use std::borrow::Borrow;
use std::cmp::Ordering;
use std::fmt;
use std::hash::{Hash, Hasher};
use std::ops::Deref;
use std::sync::Arc;

const INLINE: usize = 22;

#[derive(Clone)]
enum Kept {
    Inline { len: u8, bytes: [u8; INLINE] },
    Shared(Arc<str>),
}

#[derive(Clone)]
pub struct SmolStr(Kept);

impl SmolStr {
    pub fn new(text: impl AsRef<str>) -> Self {
        let text = text.as_ref();
        if text.len() > INLINE {
            return Self(Kept::Shared(Arc::from(text)));
        }
        let mut bytes = [0; INLINE];
        bytes[..text.len()].copy_from_slice(text.as_bytes());
        Self(Kept::Inline { len: text.len() as u8, bytes })
    }

    pub fn new_static(text: &'static str) -> Self {
        Self::new(text)
    }

    pub fn as_str(&self) -> &str {
        match &self.0 {
            // SAFETY: `new` alone builds this case, and copies the whole of a `str` into it.
            Kept::Inline { len, bytes } => unsafe { std::str::from_utf8_unchecked(&bytes[..usize::from(*len)]) },
            Kept::Shared(text) => text,
        }
    }
}

/// Gathers a text character by character; as in the real crate, a short one without an allocation.
#[derive(Default)]
pub struct SmolStrBuilder {
    bytes: [u8; INLINE],
    len: usize,
    /// All of the text, once it is longer.
    long: Option<String>,
}

impl SmolStrBuilder {
    pub fn new() -> Self {
        Self::default()
    }

    pub fn push(&mut self, c: char) {
        if let Some(long) = &mut self.long {
            return long.push(c);
        }
        match self.bytes.get_mut(self.len..self.len + c.len_utf8()) {
            Some(room) => self.len += c.encode_utf8(room).len(),
            None => {
                let mut long = self.short().to_string();
                long.push(c);
                self.long = Some(long);
            }
        }
    }

    fn short(&self) -> &str {
        // SAFETY: `push` alone fills it, with whole characters.
        unsafe { std::str::from_utf8_unchecked(&self.bytes[..self.len]) }
    }

    pub fn finish(self) -> SmolStr {
        SmolStr::new(self.long.as_deref().unwrap_or(self.short()))
    }
}

impl Deref for SmolStr {
    type Target = str;
    fn deref(&self) -> &str {
        self.as_str()
    }
}

impl AsRef<str> for SmolStr {
    fn as_ref(&self) -> &str {
        self.as_str()
    }
}

impl Borrow<str> for SmolStr {
    fn borrow(&self) -> &str {
        self.as_str()
    }
}

impl From<&str> for SmolStr {
    fn from(text: &str) -> Self {
        Self::new(text)
    }
}

impl PartialEq for SmolStr {
    fn eq(&self, other: &Self) -> bool {
        self.as_str() == other.as_str()
    }
}

impl Eq for SmolStr {}

impl PartialEq<str> for SmolStr {
    fn eq(&self, other: &str) -> bool {
        self.as_str() == other
    }
}

impl PartialEq<&str> for SmolStr {
    fn eq(&self, other: &&str) -> bool {
        self.as_str() == *other
    }
}

impl PartialOrd for SmolStr {
    fn partial_cmp(&self, other: &Self) -> Option<Ordering> {
        Some(self.cmp(other))
    }
}

impl Ord for SmolStr {
    fn cmp(&self, other: &Self) -> Ordering {
        self.as_str().cmp(other.as_str())
    }
}

impl Hash for SmolStr {
    fn hash<H: Hasher>(&self, state: &mut H) {
        self.as_str().hash(state);
    }
}

impl fmt::Debug for SmolStr {
    fn fmt(&self, f: &mut fmt::Formatter<'_>) -> fmt::Result {
        fmt::Debug::fmt(self.as_str(), f)
    }
}

impl fmt::Display for SmolStr {
    fn fmt(&self, f: &mut fmt::Formatter<'_>) -> fmt::Result {
        fmt::Display::fmt(self.as_str(), f)
    }
}

//! Wrappers that choose which bytes of a value are hashed.

/// The bytes of a text or a slice alone, which is what libraries of other languages hash.
///
/// `Hash` writes one byte more after a text, 0xff, and a slice's length before its bytes. So `"ann"` and
/// `raw_bytes::from_str("ann")` are two keys.
pub mod raw_bytes {
    use std::hash::{Hash, Hasher};

    /// Bytes that are hashed as they are.
    #[derive(Debug, Clone, Copy, PartialEq, Eq, PartialOrd, Ord)]
    pub struct RawBytes<'a>(&'a [u8]);

    impl Hash for RawBytes<'_> {
        fn hash<H: Hasher>(&self, state: &mut H) {
            state.write(self.0);
        }
    }

    /// The UTF-8 bytes of a text.
    #[allow(clippy::should_implement_trait)]
    pub fn from_str(text: &str) -> RawBytes<'_> {
        RawBytes(text.as_bytes())
    }

    /// The bytes of a slice.
    pub fn from_slice(bytes: &[u8]) -> RawBytes<'_> {
        RawBytes(bytes)
    }
}

//! The capacity of the types that own their bytes.
use crate::path_buf::PathBuf;
use crate::unix_string::UnixString;
use alloc::collections::TryReserveError;
use alloc::vec::Vec;

/// Implements the methods that concern the capacity, by those of the vector of bytes.
macro_rules! with_capacity {
    ($($owner:ident: $($bytes:ident).+;)*) => {$(
        impl $owner {
            /// Creates an empty value with at least this capacity.
            ///
            /// ```
            #[doc = concat!("use unix_path_proved::", stringify!($owner), " as Owner;")]
            /// let made = Owner::with_capacity(10);
            /// assert!(made.capacity() >= 10);
            /// ```
            #[must_use]
            #[inline]
            pub fn with_capacity(capacity: usize) -> $owner {
                Vec::with_capacity(capacity).into()
            }

            /// Returns the capacity.
            ///
            /// ```
            #[doc = concat!("use unix_path_proved::", stringify!($owner), " as Owner;")]
            /// assert_eq!(Owner::new().capacity(), 0);
            /// ```
            #[must_use]
            #[inline]
            pub fn capacity(&self) -> usize {
                self.$($bytes).+.capacity()
            }

            /// Removes all bytes, and keeps the capacity.
            ///
            /// ```
            #[doc = concat!("use unix_path_proved::", stringify!($owner), " as Owner;")]
            /// let mut it = Owner::from("a");
            /// it.clear();
            /// assert!(*it == *"" && it.capacity() > 0);
            /// ```
            #[inline]
            pub fn clear(&mut self) {
                self.$($bytes).+.clear();
            }

            /// Reserves capacity for at least this many more bytes.
            ///
            /// ```
            #[doc = concat!("use unix_path_proved::", stringify!($owner), " as Owner;")]
            /// let mut it = Owner::from("a");
            /// it.reserve(10);
            /// assert!(it.capacity() >= 11);
            /// ```
            #[inline]
            pub fn reserve(&mut self, additional: usize) {
                self.$($bytes).+.reserve(additional);
            }

            /// Reserves capacity for this many more bytes, without asking for more than that.
            ///
            /// ```
            #[doc = concat!("use unix_path_proved::", stringify!($owner), " as Owner;")]
            /// let mut it = Owner::from("a");
            /// it.reserve_exact(10);
            /// assert!(it.capacity() >= 11);
            /// ```
            #[inline]
            pub fn reserve_exact(&mut self, additional: usize) {
                self.$($bytes).+.reserve_exact(additional);
            }

            /// Reserves capacity for at least this many more bytes. If an allocation fails, it is
            /// an error, and nothing changes.
            ///
            /// ```
            #[doc = concat!("use unix_path_proved::", stringify!($owner), " as Owner;")]
            /// let mut it = Owner::from("a");
            /// assert!(it.try_reserve(10).is_ok() && it.capacity() >= 11);
            /// assert!(it.try_reserve(usize::MAX).is_err());
            /// ```
            #[inline]
            pub fn try_reserve(&mut self, additional: usize) -> Result<(), TryReserveError> {
                self.$($bytes).+.try_reserve(additional)
            }

            /// Reserves capacity for this many more bytes, without asking for more than that. If an
            /// allocation fails, it is an error, and nothing changes.
            ///
            /// ```
            #[doc = concat!("use unix_path_proved::", stringify!($owner), " as Owner;")]
            /// let mut it = Owner::from("a");
            /// assert!(it.try_reserve_exact(10).is_ok() && it.capacity() >= 11);
            /// ```
            #[inline]
            pub fn try_reserve_exact(&mut self, additional: usize) -> Result<(), TryReserveError> {
                self.$($bytes).+.try_reserve_exact(additional)
            }

            /// Releases spare capacity.
            ///
            /// ```
            #[doc = concat!("use unix_path_proved::", stringify!($owner), " as Owner;")]
            /// let mut it = Owner::with_capacity(100);
            /// it.shrink_to_fit();
            /// assert!(it.capacity() < 100);
            /// ```
            #[inline]
            pub fn shrink_to_fit(&mut self) {
                self.$($bytes).+.shrink_to_fit();
            }

            /// Releases spare capacity, down to this capacity.
            ///
            /// ```
            #[doc = concat!("use unix_path_proved::", stringify!($owner), " as Owner;")]
            /// let mut it = Owner::with_capacity(100);
            /// it.shrink_to(20);
            /// assert!(it.capacity() < 100);
            /// ```
            #[inline]
            pub fn shrink_to(&mut self, min_capacity: usize) {
                self.$($bytes).+.shrink_to(min_capacity);
            }
        }
    )*};
}

with_capacity! {
    PathBuf: text.bytes;
    UnixString: bytes;
}

//! Conversions between paths or texts and other types: bytes, strings and, on Unix, the paths and
//! strings of std. One that takes an owned value converts it in the same memory; one that returns
//! a reference copies nothing; the others copy the bytes.
use crate::path::Path;
use crate::unix_str::UnixStr;
use core::str::{self, Utf8Error};
#[cfg(feature = "alloc")]
use {
    crate::path_buf::PathBuf,
    crate::unix_string::UnixString,
    alloc::{borrow::Cow, boxed::Box, string::String, vec::Vec},
};

/// Lets values of each type be used as paths and as text; the expression has their bytes.
macro_rules! used_as_paths {
    ($value:ident: $($kind:ty => $bytes:expr;)*) => {$(
        impl AsRef<UnixStr> for $kind {
            #[inline]
            fn as_ref(&self) -> &UnixStr {
                let $value = self;
                UnixStr::of($bytes)
            }
        }

        impl AsRef<Path> for $kind {
            #[inline]
            fn as_ref(&self) -> &Path {
                let $value = self;
                Path::of($bytes)
            }
        }
    )*};
}

used_as_paths! {
    value:
    UnixStr => value.as_bytes();
    Path => value.as_bytes();
    str => value.as_bytes();
    [u8] => value;
}

#[cfg(feature = "alloc")]
used_as_paths! {
    value:
    UnixString => value.as_bytes();
    PathBuf => value.as_bytes();
    String => value.as_bytes();
    Vec<u8> => value;
}

impl<const N: usize> AsRef<UnixStr> for [u8; N] {
    #[inline]
    fn as_ref(&self) -> &UnixStr {
        UnixStr::of(self)
    }
}

impl<const N: usize> AsRef<Path> for [u8; N] {
    #[inline]
    fn as_ref(&self) -> &Path {
        Path::of(self)
    }
}

#[cfg(feature = "alloc")]
impl AsRef<Path> for Cow<'_, UnixStr> {
    #[inline]
    fn as_ref(&self) -> &Path {
        Path::of(self.as_bytes())
    }
}

/// Converts references to each type to a view.
macro_rules! borrowed_from {
    ($view:ident: $($kind:ty)*) => {$(
        impl<'a> From<&'a $kind> for &'a $view {
            #[inline]
            fn from(value: &'a $kind) -> &'a $view {
                value.as_ref()
            }
        }
    )*};
}

borrowed_from!(Path: [u8] str UnixStr);
borrowed_from!(UnixStr: [u8] str Path);

/// Converts a view to text, unless it isn't valid UTF-8.
macro_rules! to_str {
    ($($view:ident)*) => {$(
        impl<'a> TryFrom<&'a $view> for &'a str {
            type Error = Utf8Error;

            #[inline]
            fn try_from(value: &'a $view) -> Result<&'a str, Utf8Error> {
                str::from_utf8(value.as_bytes())
            }
        }
    )*};
}

to_str!(UnixStr Path);

/// Converts owned values in the same memory.
#[cfg(feature = "alloc")]
macro_rules! owned_from {
    ($($kind:ty { $($other:ty, $made:expr;)* })*) => {$($(
        impl From<$other> for $kind {
            #[inline]
            fn from(value: $other) -> $kind {
                $made(value)
            }
        }
    )*)*};
}

#[cfg(feature = "alloc")]
owned_from! {
    UnixString {
        Vec<u8>, UnixString::from_vec;
        String, |text: String| UnixString::from_vec(text.into_bytes());
        PathBuf, PathBuf::into_unix_string;
        Box<UnixStr>, UnixStr::into_unix_string;
    }
    PathBuf {
        Vec<u8>, PathBuf::of;
        String, |text: String| PathBuf::of(text.into_bytes());
        UnixString, |text: UnixString| PathBuf::of(text.into_vec());
        Box<Path>, Path::into_path_buf;
    }
    Vec<u8> {
        UnixString, UnixString::into_vec;
        PathBuf, |path: PathBuf| path.into_unix_string().into_vec();
    }
}

#[cfg(feature = "alloc")]
impl<T: AsRef<UnixStr> + ?Sized> From<&T> for UnixString {
    #[inline]
    fn from(value: &T) -> UnixString {
        value.as_ref().to_unix_string()
    }
}

#[cfg(feature = "alloc")]
impl<T: AsRef<UnixStr> + ?Sized> From<&T> for PathBuf {
    #[inline]
    fn from(value: &T) -> PathBuf {
        PathBuf::of(value.as_ref().as_bytes().to_vec())
    }
}

/// The paths and strings of std, which are bytes on Unix.
#[cfg(all(feature = "std", unix))]
mod of_std {
    use super::*;
    use crate::component::Component;
    use crate::walks::{Components, Iter};
    use std::ffi::{OsStr, OsString};
    use std::os::unix::ffi::{OsStrExt, OsStringExt};
    use std::path;

    used_as_paths! {
        value:
        OsStr => value.as_bytes();
        OsString => value.as_bytes();
        path::Path => value.as_os_str().as_bytes();
        path::PathBuf => value.as_os_str().as_bytes();
    }

    borrowed_from!(Path: OsStr path::Path);
    borrowed_from!(UnixStr: OsStr path::Path);

    owned_from! {
        UnixString {
            OsString, |text: OsString| UnixString::from_vec(text.into_vec());
            path::PathBuf, |path: path::PathBuf| path.into_os_string().into();
        }
        PathBuf {
            OsString, |text: OsString| PathBuf::of(text.into_vec());
            path::PathBuf, |path: path::PathBuf| path.into_os_string().into();
        }
        OsString {
            UnixString, |text: UnixString| OsString::from_vec(text.into_vec());
            PathBuf, |path: PathBuf| path.into_unix_string().into();
        }
        path::PathBuf {
            UnixString, |text| path::PathBuf::from(OsString::from(text));
            PathBuf, |path| path::PathBuf::from(OsString::from(path));
        }
    }

    /// Lets values of our types be used as paths and strings of std.
    macro_rules! used_in_std {
        ($($kind:ty)*) => {$(
            impl AsRef<OsStr> for $kind {
                #[inline]
                fn as_ref(&self) -> &OsStr {
                    OsStr::from_bytes(AsRef::<UnixStr>::as_ref(self).as_bytes())
                }
            }

            impl AsRef<path::Path> for $kind {
                #[inline]
                fn as_ref(&self) -> &path::Path {
                    path::Path::new(AsRef::<OsStr>::as_ref(self))
                }
            }
        )*};
    }

    used_in_std!(UnixStr UnixString Path PathBuf Component<'_> Components<'_> Iter<'_>);
}

//! Comparisons between different types: by components if one of the two is a path, and otherwise by
//! bytes. The pairs of types are those of Rust's std, with `UnixStr` for `OsStr`.
use crate::path::Path;
use crate::unix_str::UnixStr;
use core::cmp::Ordering;
#[cfg(feature = "alloc")]
use {
    crate::path_buf::PathBuf, crate::unix_string::UnixString, alloc::borrow::Cow,
    alloc::string::String,
};

/// Implements `==` between the two types of each pair, in either order. Both values are compared as
/// `$view`.
macro_rules! equal_as {
    ($view:ident: $($one:ty, $other:ty;)*) => {$(
        impl<'a, 'b> PartialEq<$other> for $one {
            #[inline]
            fn eq(&self, other: &$other) -> bool {
                <$view as PartialEq>::eq(self.as_ref(), other.as_ref())
            }
        }

        impl<'a, 'b> PartialEq<$one> for $other {
            #[inline]
            fn eq(&self, other: &$one) -> bool {
                <$view as PartialEq>::eq(self.as_ref(), other.as_ref())
            }
        }
    )*};
}

/// Implements `==` and the ordering between the two types of each pair. Both values are compared as
/// `$view`.
macro_rules! ordered_as {
    ($view:ident: $($one:ty, $other:ty;)*) => {
        equal_as!($view: $($one, $other;)*);
        $(
            impl<'a, 'b> PartialOrd<$other> for $one {
                #[inline]
                fn partial_cmp(&self, other: &$other) -> Option<Ordering> {
                    <$view as PartialOrd>::partial_cmp(self.as_ref(), other.as_ref())
                }
            }

            impl<'a, 'b> PartialOrd<$one> for $other {
                #[inline]
                fn partial_cmp(&self, other: &$one) -> Option<Ordering> {
                    <$view as PartialOrd>::partial_cmp(self.as_ref(), other.as_ref())
                }
            }
        )*
    };
}

ordered_as! {
    Path:
    Path, UnixStr;
    Path, &'a UnixStr;
    &'a Path, UnixStr;
}

#[cfg(feature = "alloc")]
ordered_as! {
    Path:
    PathBuf, Path;
    PathBuf, &'a Path;
    Cow<'a, Path>, Path;
    Cow<'a, Path>, &'b Path;
    Cow<'a, Path>, PathBuf;
    PathBuf, UnixStr;
    PathBuf, &'a UnixStr;
    PathBuf, UnixString;
    PathBuf, Cow<'a, UnixStr>;
    Path, UnixString;
    Path, Cow<'a, UnixStr>;
    &'a Path, UnixString;
    &'a Path, Cow<'b, UnixStr>;
    Cow<'a, Path>, UnixStr;
    Cow<'a, Path>, &'b UnixStr;
    Cow<'a, Path>, UnixString;
}

equal_as! {
    Path:
    Path, str;
}

#[cfg(feature = "alloc")]
equal_as! {
    Path:
    Path, String;
    PathBuf, str;
    PathBuf, String;
}

#[cfg(feature = "alloc")]
ordered_as! {
    UnixStr:
    UnixString, UnixStr;
    UnixString, &'a UnixStr;
    Cow<'a, UnixStr>, UnixStr;
    Cow<'a, UnixStr>, &'b UnixStr;
    Cow<'a, UnixStr>, UnixString;
}

equal_as! {
    UnixStr:
    UnixStr, str;
}

#[cfg(feature = "alloc")]
equal_as! {
    UnixStr:
    UnixString, str;
    UnixString, &'a str;
}

impl PartialOrd<str> for UnixStr {
    #[inline]
    fn partial_cmp(&self, other: &str) -> Option<Ordering> {
        self.as_bytes().partial_cmp(other.as_bytes())
    }
}

#[cfg(feature = "alloc")]
impl PartialOrd<str> for UnixString {
    #[inline]
    fn partial_cmp(&self, other: &str) -> Option<Ordering> {
        self.as_bytes().partial_cmp(other.as_bytes())
    }
}

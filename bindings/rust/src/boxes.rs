//! Paths and text in a `Box`, an `Rc`, an `Arc` and a `Cow`.
use crate::path::Path;
use crate::path_buf::PathBuf;
use crate::unix_str::UnixStr;
use crate::unix_string::UnixString;
use alloc::borrow::Cow;
use alloc::boxed::Box;
use alloc::rc::Rc;
#[cfg(target_has_atomic = "ptr")]
use alloc::sync::Arc;
use alloc::vec::Vec;

/// Implements the conversions from references to the view `$view` to each type that owns it.
macro_rules! copied {
    ($view:ident: $($owner:ident, $in_owner:ident;)*) => {$(
        /// Copies the bytes.
        impl From<&$view> for $owner<$view> {
            #[inline]
            fn from(view: &$view) -> $owner<$view> {
                $view::$in_owner(view.as_bytes().into())
            }
        }

        /// Copies the bytes.
        impl From<&mut $view> for $owner<$view> {
            #[inline]
            fn from(view: &mut $view) -> $owner<$view> {
                $owner::from(&*view)
            }
        }
    )*};
}

/// Implements the conversions from the view `$view` and from its owning type `$buffer` to `Box`,
/// `Rc`, `Arc` and `Cow`. `$into_box` converts a buffer to a box.
macro_rules! owners {
    ($view:ident, $buffer:ident, $into_box:ident) => {
        copied!($view: Box, in_box; Rc, in_rc;);
        #[cfg(target_has_atomic = "ptr")]
        copied!($view: Arc, in_arc;);

        /// Converts in the same memory if there is no spare capacity. Otherwise the bytes may move
        /// to a smaller allocation.
        impl From<$buffer> for Box<$view> {
            #[inline]
            fn from(buffer: $buffer) -> Box<$view> {
                buffer.$into_box()
            }
        }

        /// Converts an owned value as if it were not in a `Cow`, and copies the bytes of a borrowed
        /// one.
        impl From<Cow<'_, $view>> for Box<$view> {
            #[inline]
            fn from(cow: Cow<'_, $view>) -> Box<$view> {
                match cow {
                    Cow::Borrowed(view) => view.into(),
                    Cow::Owned(buffer) => buffer.into(),
                }
            }
        }

        impl Clone for Box<$view> {
            #[inline]
            fn clone(&self) -> Box<$view> {
                Box::from(&**self)
            }
        }

        /// Copies the bytes.
        impl From<$buffer> for Rc<$view> {
            #[inline]
            fn from(buffer: $buffer) -> Rc<$view> {
                $view::in_rc(Vec::from(buffer).into())
            }
        }

        /// Copies the bytes.
        #[cfg(target_has_atomic = "ptr")]
        impl From<$buffer> for Arc<$view> {
            #[inline]
            fn from(buffer: $buffer) -> Arc<$view> {
                $view::in_arc(Vec::from(buffer).into())
            }
        }

        impl<'a> From<&'a $view> for Cow<'a, $view> {
            #[inline]
            fn from(view: &'a $view) -> Cow<'a, $view> {
                Cow::Borrowed(view)
            }
        }

        impl<'a> From<$buffer> for Cow<'a, $view> {
            #[inline]
            fn from(buffer: $buffer) -> Cow<'a, $view> {
                Cow::Owned(buffer)
            }
        }

        impl<'a> From<&'a $buffer> for Cow<'a, $view> {
            #[inline]
            fn from(buffer: &'a $buffer) -> Cow<'a, $view> {
                Cow::Borrowed(buffer)
            }
        }
    };
}

owners!(Path, PathBuf, into_boxed_path);
owners!(UnixStr, UnixString, into_boxed_unix_str);

impl Default for Box<UnixStr> {
    /// Returns the empty string.
    #[inline]
    fn default() -> Box<UnixStr> {
        UnixStr::in_box(Box::default())
    }
}

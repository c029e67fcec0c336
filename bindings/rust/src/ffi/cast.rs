//! Conversions between bytes and `UnixStr` or `Path`.
//!
//! Each `unsafe` block depends on the same facts. Both types are `repr(transparent)` over `[u8]`,
//! so they have the layout of their bytes, with the same length next to the pointer. Any bytes are
//! a value of either type.
use crate::path::Path;
use crate::unix_str::UnixStr;
#[cfg(all(feature = "alloc", target_has_atomic = "ptr"))]
use alloc::sync::Arc;
#[cfg(feature = "alloc")]
use alloc::{boxed::Box, rc::Rc};

macro_rules! views_of_bytes {
    ($view:ident) => {
        impl $view {
            /// Returns a view of these bytes.
            #[inline]
            pub(crate) const fn of(bytes: &[u8]) -> &$view {
                // SAFETY: the view is laid out as its bytes, and lives as long as they do.
                unsafe { &*(bytes as *const [u8] as *const $view) }
            }
        }

        #[cfg(feature = "alloc")]
        impl $view {
            /// Returns a view of these bytes, through which they can be changed.
            #[inline]
            pub(crate) fn of_mut(bytes: &mut [u8]) -> &mut $view {
                // SAFETY: the view is laid out as its bytes, lives as long as they do, and is the
                // only access to them.
                unsafe { &mut *(bytes as *mut [u8] as *mut $view) }
            }

            /// Converts these bytes to the view, in the same memory.
            #[inline]
            pub(crate) fn in_box(bytes: Box<[u8]>) -> Box<$view> {
                // SAFETY: the view is laid out as its bytes, and the pointer comes from a box.
                unsafe { Box::from_raw(Box::into_raw(bytes) as *mut $view) }
            }

            /// Converts the view to its bytes, in the same memory.
            #[inline]
            pub(crate) fn out_of_box(boxed: Box<$view>) -> Box<[u8]> {
                // SAFETY: the bytes are laid out as the view, and the pointer comes from a box.
                unsafe { Box::from_raw(Box::into_raw(boxed) as *mut [u8]) }
            }

            /// Converts these bytes to the view, in the same memory.
            #[inline]
            pub(crate) fn in_rc(bytes: Rc<[u8]>) -> Rc<$view> {
                // SAFETY: the view is laid out as its bytes, and the pointer comes from an `Rc`.
                unsafe { Rc::from_raw(Rc::into_raw(bytes) as *const $view) }
            }

            /// Converts these bytes to the view, in the same memory.
            #[cfg(target_has_atomic = "ptr")]
            #[inline]
            pub(crate) fn in_arc(bytes: Arc<[u8]>) -> Arc<$view> {
                // SAFETY: the view is laid out as its bytes, and the pointer comes from an `Arc`.
                unsafe { Arc::from_raw(Arc::into_raw(bytes) as *const $view) }
            }
        }
    };
}

views_of_bytes!(UnixStr);
views_of_bytes!(Path);

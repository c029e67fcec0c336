//! The code of the calls: the assembly for the target, or with the feature `system` an installed
//! `libunix_path`. For other targets there is none: a program can be checked, but not linked.

#[cfg(feature = "system")]
#[link(name = "unix_path")]
extern "C" {}

/// Declares the calls under their own names.
#[allow(unused_macros)]
macro_rules! with_code {
    ($($(#[$doc:meta])* pub fn $name:ident $parameters:tt $(-> $answer:ty)?;)*) => {
        #[allow(dead_code)]
        extern "C" {
            $($(#[$doc])* pub fn $name $parameters $(-> $answer)?;)*
        }
    };
}

/// Declares each call under the name of a symbol that doesn't exist, so that the linker says why it
/// is missing.
#[allow(unused_macros)]
macro_rules! without_code {
    ($($(#[$doc:meta])* pub fn $name:ident $parameters:tt $(-> $answer:ty)?;)*) => {
        #[allow(dead_code, clashing_extern_declarations)]
        extern "C" {
            $(
                $(#[$doc])*
                #[link_name = "unix_path_proved has no assembly for this target. \
                    Install libunix_path, and take the feature `system`, which links it."]
                pub fn $name $parameters $(-> $answer)?;
            )*
        }
    };
}

/// Includes the assembly of the line whose `cfg` holds. Miri can't run any.
macro_rules! assembly {
    ($($target:meta => $file:literal $options:tt)+) => {
        $(
            #[cfg(all(not(feature = "system"), not(miri), $target))]
            core::arch::global_asm!(include_str!($file), options $options);
        )+

        #[cfg(any(feature = "system", all(not(miri), any($($target),+))))]
        pub(super) use with_code as declare;
        #[cfg(not(any(feature = "system", all(not(miri), any($($target),+)))))]
        pub(super) use without_code as declare;
    };
}

// A test compares these lines with the directories of `asm`.
assembly! {
    all(target_os = "linux", target_arch = "x86_64", target_pointer_width = "64")
        => "../../asm/x86_64-linux/unix_path.s" (att_syntax, raw)
    all(target_os = "linux", target_arch = "aarch64", target_pointer_width = "64",
        target_endian = "little")
        => "../../asm/aarch64-linux/unix_path.s" (raw)
    all(target_os = "windows", target_arch = "x86_64")
        => "../../asm/x86_64-windows/unix_path.s" (att_syntax, raw)
    all(target_os = "macos", target_arch = "x86_64")
        => "../../asm/x86_64-macos/unix_path.s" (att_syntax, raw)
    all(target_os = "macos", target_arch = "aarch64")
        => "../../asm/aarch64-macos/unix_path.s" (raw)
}

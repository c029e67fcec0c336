//! The part of `core` that `bindings/rust/src/ffi/code.rs` uses: macros that are built into rustc.
//! With this file instead of `core`, rustc accepts or rejects the assembly for a target whose
//! `core` is not installed.
#![feature(no_core, rustc_attrs, decl_macro)]
#![allow(internal_features)]
#![no_core]

pub mod arch {
    #[rustc_builtin_macro]
    pub macro global_asm() {}
}

#[rustc_builtin_macro]
#[macro_export]
macro_rules! include_str {
    () => {};
}

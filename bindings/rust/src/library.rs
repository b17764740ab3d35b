//! The proved library, as the assembly that the Rattle kit made of it: of the files of `dist/`, whose folder
//! `build.rs` finds, that of the target. Where `build.rs` links an archive, it is that one, and nothing
//! stands here.

/// Takes in the file of the target that this is compiled for, and is an error if none is.
macro_rules! take_one_of {
    ($($arch:literal, $($os:literal)|+: $file:literal, $($option:ident),+;)+) => {
        $(
            #[cfg(all(
                not(library_is_linked),
                target_arch = $arch,
                any($(target_os = $os),+),
                target_pointer_width = "64",
                target_endian = "little"
            ))]
            core::arch::global_asm!(
                include_str!(concat!(env!("TEXTWRAP_DIST"), "/", $file, "/textwrap_proved.s")),
                options($($option),+)
            );
        )+
        #[cfg(not(any(
            library_is_linked,
            $(all(
                target_arch = $arch,
                any($(target_os = $os),+),
                target_pointer_width = "64",
                target_endian = "little"
            )),+
        )))]
        compile_error!(concat!(
            "textwrap_proved has no library for this target; it has",
            $(" ", $file),+
        ));
    };
}

// FreeBSD has the files of Linux.
take_one_of! {
    "x86_64", "linux" | "freebsd": "x86_64-linux", att_syntax, raw;
    "aarch64", "linux" | "freebsd": "aarch64-linux", raw;
    "x86_64", "windows": "x86_64-windows", att_syntax, raw;
    "aarch64", "macos": "aarch64-macos", raw;
    "x86_64", "macos": "x86_64-macos", att_syntax, raw;
}

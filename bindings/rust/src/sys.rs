//! The functions of the library for C. What is `unsafe` stands here alone.

use std::cmp::min;

/// The status of a call. Where it is none of these, an argument isn't one that the call takes.
pub(crate) type Status = u32;
pub(crate) const DONE: Status = 0;
pub(crate) const REFUSED: Status = 1;
pub(crate) const OUT_OF_MEMORY: Status = 2;

/// Of each call its name in the library, the texts that it takes, and the numbers.
macro_rules! calls {
    ($($name:ident = $function:ident($($text:ident),*; $($number:ident),*);)*) => {
        extern "C" {
            $(fn $function($($text: *const u8, _: usize,)* $($number: u64,)*
                out: *mut u8, size: usize, needed: *mut usize) -> Status;)*
        }

        $(pub(crate) fn $name($($text: &[u8],)* $($number: u64,)* answer: &mut Vec<u8>)
            -> (Status, usize)
        {
            let (out, size, mut needed) = (answer.as_mut_ptr(), answer.capacity(), 0);
            // SAFETY: each text is read alone, up to its length. The library writes to `needed`,
            // and to at most `size` bytes from `out` on, which are reserved. So many are then
            // written.
            unsafe {
                let status = $function($($text.as_ptr(), $text.len(),)* $($number,)*
                    out, size, &mut needed);
                answer.set_len(min(needed, size));
                (status, needed)
            }
        })*
    };
}

// Each puts as much of its answer into the vector as it has reserved, and tells the status, and how
// many bytes the whole answer has. The keys are those of hashed maps: two numbers that no stranger
// knows, so that names can't be made to collide. `keep` has a name a line, each of `paths` ends in
// NUL, and the checksum and the path may be empty.
calls! {
    version = cargo_toml_version(;);
    manifest = cargo_toml_manifest(text;);
    complete = cargo_toml_complete(text, paths, root, path;);
    features = cargo_toml_features(text, keep; max_items, key_1, key_2);
    check = cargo_toml_check(text;);
    lint = cargo_toml_lint(text; key_1, key_2);
    index = cargo_toml_index(text, checksum; key_1, key_2);
    document = cargo_toml_document(text; key_1, key_2);
}

//! A text written into a lent buffer.

use std::ffi::c_uint;

/// What a call that writes a text gives beside the text.
#[derive(Clone, Copy, Debug, PartialEq, Eq)]
pub struct Placed {
    /// 0, or one of [`code`](crate::code).
    pub code: u32,
    /// The refusal's place ([`Refusal::at_counts`](crate::Refusal::at_counts)); 0 where there is none.
    pub at: u32,
    /// How many bytes the text has; refused 0.
    pub length: usize,
}

/// Declares exports that write the text of words or of bytes.
macro_rules! writers {
    ($($name:ident: $item:ty),+) => {
        unsafe extern "C" {
            $(fn $name(
                items: *const $item,
                item_count: usize,
                text: *mut u8,
                text_length: usize,
                at: *mut u32,
                length: *mut usize,
            ) -> std::ffi::c_uint;)+
        }
    };
}
pub(crate) use writers;

type Writer<T> = unsafe extern "C" fn(*const T, usize, *mut u8, usize, *mut u32, *mut usize) -> c_uint;

/// By one of those exports.
///
/// # Safety
///
/// `writer` reads and writes nothing but what it is handed: the items, the text and the two results.
pub(crate) unsafe fn place<T>(writer: Writer<T>, items: &[T], text: &mut [u8]) -> Placed {
    let (mut at, mut length) = (0, 0);
    // SAFETY: slices give pointers that are not null, aligned and valid for their lengths; `text` and
    // the two results are borrowed for this call alone.
    let code = unsafe { writer(items.as_ptr(), items.len(), text.as_mut_ptr(), text.len(), &mut at, &mut length) };
    Placed { code, at, length }
}

//! The calls into the proved library, made safe, with the bare 64-bit word that comes back.
//!
//! [`decode`](crate::decode) reads the word. Most callers want
//! [`split_into`](crate::split_into), [`combine_into`](crate::combine_into),
//! [`sheet_into`](crate::sheet_into) and [`read_sheet_into`](crate::read_sheet_into) instead.

mod c {
    extern "C" {
        pub fn vsss_split_bytes(
            threshold: usize,
            limit: usize,
            secret: *const u8,
            secret_len: usize,
            ids: *const u8,
            ids_len: usize,
            coefficients: *const u8,
            coefficients_len: usize,
            out: *mut u8,
            out_len: usize,
        ) -> u64;

        pub fn vsss_combine_bytes(
            rows: *const u8,
            rows_len: usize,
            lengths: *const u8,
            lengths_len: usize,
            out: *mut u8,
            out_len: usize,
        ) -> u64;

        pub fn vsss_write_sheet(
            threshold: usize,
            rows: *const u8,
            rows_len: usize,
            lengths: *const u8,
            lengths_len: usize,
            out: *mut u8,
            out_len: usize,
        ) -> u64;

        pub fn vsss_read_sheet(
            text: *const u8,
            text_len: usize,
            head: *mut u8,
            head_len: usize,
            out: *mut u8,
            out_len: usize,
        ) -> u64;
    }
}

/// Splits `secret` into `limit` rows, one after another from the start of `out`.
#[allow(unsafe_code)]
pub fn split_bytes(
    threshold: usize,
    limit: usize,
    secret: &[u8],
    ids: &[u8],
    coefficients: &[u8],
    out: &mut [u8],
) -> u64 {
    // SAFETY: each pointer comes with the length of its slice, and `out` is lent exclusively, so
    // it overlaps no other. The entry judges all the rest itself.
    unsafe {
        c::vsss_split_bytes(
            threshold,
            limit,
            secret.as_ptr(),
            secret.len(),
            ids.as_ptr(),
            ids.len(),
            coefficients.as_ptr(),
            coefficients.len(),
            out.as_mut_ptr(),
            out.len(),
        )
    }
}

/// Combines the rows that lie one after another in `rows`. `lengths` has four bytes for each row,
/// least first.
#[allow(unsafe_code)]
pub fn combine_bytes(rows: &[u8], lengths: &[u8], out: &mut [u8]) -> u64 {
    // SAFETY: as above.
    unsafe {
        c::vsss_combine_bytes(
            rows.as_ptr(),
            rows.len(),
            lengths.as_ptr(),
            lengths.len(),
            out.as_mut_ptr(),
            out.len(),
        )
    }
}

/// Writes the rows that lie one after another in `rows` as a sheet of text, from the start of
/// `out`. `lengths` has four bytes for each row, least first.
#[allow(unsafe_code)]
pub fn write_sheet(threshold: usize, rows: &[u8], lengths: &[u8], out: &mut [u8]) -> u64 {
    // SAFETY: as above.
    unsafe {
        c::vsss_write_sheet(
            threshold,
            rows.as_ptr(),
            rows.len(),
            lengths.as_ptr(),
            lengths.len(),
            out.as_mut_ptr(),
            out.len(),
        )
    }
}

/// Reads a sheet of text, and writes its rows one after another from the start of `out`. Its
/// threshold, its count of rows and that of a row's values go to the start of `head`, four bytes
/// each, least first.
#[allow(unsafe_code)]
pub fn read_sheet(text: &[u8], head: &mut [u8], out: &mut [u8]) -> u64 {
    // SAFETY: as above, and `head` is lent exclusively too.
    unsafe {
        c::vsss_read_sheet(
            text.as_ptr(),
            text.len(),
            head.as_mut_ptr(),
            head.len(),
            out.as_mut_ptr(),
            out.len(),
        )
    }
}

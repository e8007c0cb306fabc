//! The engine's library, where it is linked (`build.rs`).

/// Lists every choice of no and yes for some variables of a scope, the lowest-numbered
/// changing slowest: of a book, a scope, the numbers of the variables and the inputs that
/// all choices share, the bytes of the table or the number of the refusal.
pub type Tabulate = fn(&[u8], usize, &[u8], &[u8]) -> Result<Vec<u8>, u8>;

/// The library's service, where it is linked.
#[cfg(library)]
pub const TABULATE: Option<Tabulate> = Some(tabulate);
#[cfg(not(library))]
pub const TABULATE: Option<Tabulate> = None;

#[cfg(library)]
fn tabulate(book: &[u8], scope: usize, chosen: &[u8], inputs: &[u8]) -> Result<Vec<u8>, u8> {
    extern "C" {
        fn engine_tabulate(
            book: *const u8,
            book_length: usize,
            scope: usize,
            chosen: *const u8,
            chosen_length: usize,
            inputs: *const u8,
            inputs_length: usize,
            table: *mut u8,
            table_length: usize,
        ) -> u64;
    }
    /// 4,096 rows of an outcome and at most 192 bytes of results.
    const LONGEST: usize = 4096 * 193;
    let mut table = vec![0; LONGEST];
    // SAFETY: each pointer is that of a slice and goes with its length; the table, which
    // alone is written, overlaps nothing.
    let packed = unsafe {
        engine_tabulate(
            book.as_ptr(),
            book.len(),
            scope,
            chosen.as_ptr(),
            chosen.len(),
            inputs.as_ptr(),
            inputs.len(),
            table.as_mut_ptr(),
            table.len(),
        )
    };
    table.truncate((packed & 0xffff_ffff) as usize);
    match (packed >> 56) as u8 {
        0 => Ok(table),
        refusal => Err(refusal),
    }
}

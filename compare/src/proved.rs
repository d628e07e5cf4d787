//! The proved entries, called through their static library. All that depends on their names and forms is here and
//! in build.rs.

unsafe extern "C" {
    fn lgt_score(
        sheet: *const u8,
        sheet_length: usize,
        result: *mut u8,
        result_length: usize,
        scratch: *mut u32,
        scratch_length: usize,
    ) -> usize;

    fn lgt_score_history(
        sheet: *const u8,
        sheet_length: usize,
        result: *mut u8,
        result_length: usize,
        scratch: *mut u32,
        scratch_length: usize,
    ) -> usize;

    fn lgt_score_newick(
        sheet: *const u8,
        sheet_length: usize,
        tree: *const u8,
        tree_length: usize,
        result: *mut u8,
        result_length: usize,
        scratch: *mut u32,
        scratch_length: usize,
    ) -> usize;
}

/// The paper's number: bytes written for a report, 1 to 13 for a refusal.
pub fn score(sheet: &[u8], result: &mut [u8], scratch: &mut [u32]) -> u32 {
    // SAFETY: each pointer comes from a slice together with its length, and the slices do not overlap.
    // The entry takes any sheet and any lengths and touches nothing else, which is proved of it.
    let number = unsafe {
        lgt_score(
            sheet.as_ptr(),
            sheet.len(),
            result.as_mut_ptr(),
            result.len(),
            scratch.as_mut_ptr(),
            scratch.len(),
        )
    };
    u32::try_from(number).expect("a number of the paper")
}

/// The same with a history behind the report; the bytes are those of both.
pub fn score_history(sheet: &[u8], result: &mut [u8], scratch: &mut [u32]) -> u32 {
    // SAFETY: as above.
    let number = unsafe {
        lgt_score_history(
            sheet.as_ptr(),
            sheet.len(),
            result.as_mut_ptr(),
            result.len(),
            scratch.as_mut_ptr(),
            scratch.len(),
        )
    };
    u32::try_from(number).expect("a number of the paper")
}

/// What `score` gives, of a sheet without gene lines and the text of a gene tree; 1 to 15 for a refusal.
pub fn score_newick(sheet: &[u8], tree: &[u8], result: &mut [u8], scratch: &mut [u32]) -> u32 {
    // SAFETY: as above, for four slices.
    let number = unsafe {
        lgt_score_newick(
            sheet.as_ptr(),
            sheet.len(),
            tree.as_ptr(),
            tree.len(),
            result.as_mut_ptr(),
            result.len(),
            scratch.as_mut_ptr(),
            scratch.len(),
        )
    };
    u32::try_from(number).expect("a number of the paper")
}

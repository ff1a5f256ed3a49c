//! The library's four calls with their packed answers, and all the unsafe code of this crate.
//!
//! Nothing checks these declarations against the library. Its contracts stand in `crates/export`.

unsafe extern "C" {
    fn rinsholupe_test(chart: *const u8, chart_len: usize, report: *mut u8, report_len: usize) -> u32;
    fn rinsholupe_form(report: *const u8, report_len: usize) -> u32;
    fn rinsholupe_body(report: *const u8, report_len: usize) -> u64;
    fn rinsholupe_judge(chart: *const u8, chart_len: usize, report: *const u8, report_len: usize) -> u32;
}

// SAFETY of every call here: a slice's pointer is not null and is valid for its length, the empty slice's too; the
// borrow lasts as long as the call and the library keeps no pointer after it; `&mut` overlaps nothing else and is the
// only slice written to; the library asks nothing else of its callers and doesn't unwind.

/// number x 65536 + bytes written
pub(crate) fn test(chart: &[u8], report: &mut [u8]) -> u32 {
    unsafe { rinsholupe_test(chart.as_ptr(), chart.len(), report.as_mut_ptr(), report.len()) }
}

/// result x 65536 + count, or 0xFFFFFFFF on bad form
pub(crate) fn form(report: &[u8]) -> u32 {
    unsafe { rinsholupe_form(report.as_ptr(), report.len()) }
}

/// start x 4294967296 + length
pub(crate) fn body(report: &[u8]) -> u64 {
    unsafe { rinsholupe_body(report.as_ptr(), report.len()) }
}

/// 0 to 4 for J0 to J4, 65536 + n for the chart's refusal n
pub(crate) fn judge(chart: &[u8], report: &[u8]) -> u32 {
    unsafe { rinsholupe_judge(chart.as_ptr(), chart.len(), report.as_ptr(), report.len()) }
}

//! The proved library's calls, as its archive exports them, and the packing of their answers.

use crate::judge::Verdict;
use std::ops::Range;

/// The four calls with their packed answers: the library, or the stand-in that the comparison is tried on.
pub trait Desk {
    /// number * 65536 + bytes written
    fn test(&self, chart: &[u8], report: &mut [u8]) -> u32;
    /// result * 65536 + count, or 0xFFFFFFFF on bad form
    fn form(&self, report: &[u8]) -> u32;
    /// start * 4294967296 + length of the body: start 8, or 0 with length 0 on bad form
    fn body(&self, report: &[u8]) -> u64;
    /// 0 to 4 for J0 to J4; 65536 + n for the chart's refusal n
    fn judge(&self, chart: &[u8], report: &[u8]) -> u32;
}

const BAD_FORM: u32 = 0xFFFF_FFFF;

pub fn pack_test(number: u16, written: usize) -> u32 {
    u32::from(number) * 65536 + u32::try_from(written).expect("at most 6,152")
}

pub fn pack_form(form: Option<(u8, usize)>) -> u32 {
    match form {
        Some((result, count)) => u32::from(result) * 65536 + u32::try_from(count).expect("16 bits"),
        None => BAD_FORM,
    }
}

pub fn pack_body(body: Range<usize>) -> u64 {
    ((body.start as u64) << 32) + body.len() as u64
}

pub fn pack_verdict(verdict: Verdict) -> u32 {
    match verdict {
        Verdict::LabelsHold => 0,
        Verdict::CutHolds => 1,
        Verdict::BadForm => 2,
        Verdict::LabelsBroken => 3,
        Verdict::NoCut => 4,
        Verdict::Chart(number) => 65536 + u32::from(number),
    }
}

/// Which archive this build calls.
pub const NAME: &str = if cfg!(feature = "stub") {
    "the stand-in"
} else if cfg!(archive) {
    "the library"
} else if cfg!(served) {
    "the emulated library"
} else {
    "nothing"
};

/// The library, or why there is none in this build.
pub fn library() -> Result<Box<dyn Desk>, &'static str> {
    #[cfg(any(archive, feature = "stub"))]
    return Ok(Box::new(archive::Library));
    #[cfg(served)]
    return Ok(Box::new(crate::served::Served::start()?));
    #[cfg(not(any(archive, served, feature = "stub")))]
    return Err("built without libexport.a: build the archive, name its folder in RINSHOLUPE_LIB_DIR, build again");
}

/// The first of the four calls, alone.
pub type Test = fn(&[u8], &mut [u8]) -> u32;

/// The library's test before a change, where the archive of that version is linked too: its symbols have a prefix.
pub fn test_before() -> Option<Test> {
    #[cfg(before)]
    return Some(before::test);
    #[cfg(not(before))]
    return None;
}

#[cfg(before)]
mod before {
    unsafe extern "C" {
        fn before_rinsholupe_test(chart: *const u8, chart_len: usize, report: *mut u8, report_len: usize) -> u32;
    }

    // As below.
    pub fn test(chart: &[u8], report: &mut [u8]) -> u32 {
        unsafe { before_rinsholupe_test(chart.as_ptr(), chart.len(), report.as_mut_ptr(), report.len()) }
    }
}

#[cfg(any(archive, feature = "stub"))]
mod archive {
    use super::Desk;

    unsafe extern "C" {
        fn rinsholupe_test(chart: *const u8, chart_len: usize, report: *mut u8, report_len: usize) -> u32;
        fn rinsholupe_form(report: *const u8, report_len: usize) -> u32;
        fn rinsholupe_body(report: *const u8, report_len: usize) -> u64;
        fn rinsholupe_judge(chart: *const u8, chart_len: usize, report: *const u8, report_len: usize) -> u32;
    }

    pub struct Library;

    // Each call lends the library a slice as its pointer and length for the time of the call; none has a condition.
    impl Desk for Library {
        fn test(&self, chart: &[u8], report: &mut [u8]) -> u32 {
            unsafe { rinsholupe_test(chart.as_ptr(), chart.len(), report.as_mut_ptr(), report.len()) }
        }

        fn form(&self, report: &[u8]) -> u32 {
            unsafe { rinsholupe_form(report.as_ptr(), report.len()) }
        }

        fn body(&self, report: &[u8]) -> u64 {
            unsafe { rinsholupe_body(report.as_ptr(), report.len()) }
        }

        fn judge(&self, chart: &[u8], report: &[u8]) -> u32 {
            unsafe { rinsholupe_judge(chart.as_ptr(), chart.len(), report.as_ptr(), report.len()) }
        }
    }
}

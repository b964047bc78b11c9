//! The proved library, through the C function of `include/wazrelin.h`.

use std::fmt;

/// Whether the proved library is linked.
pub const LINKED: bool = cfg!(proved);

/// Why there is no report.
#[derive(Clone, Copy, Debug, PartialEq, Eq)]
pub enum Failure {
    /// The bytes that the buffer must have.
    TooShort(usize),
    NoMemory,
    /// A status that the header does not name.
    Status(u32),
}

#[repr(C)]
struct Written {
    length: usize,
    status: u32,
}

#[cfg(proved)]
unsafe extern "C" {
    fn wazrelin_report(
        plan: *const u8,
        plan_length: usize,
        out: *mut u8,
        out_length: usize,
    ) -> Written;
}

/// Stands in where the library is not linked.
#[cfg(not(proved))]
unsafe fn wazrelin_report(_: *const u8, _: usize, _: *mut u8, _: usize) -> Written {
    panic!("the proved library is not linked")
}

/// Writes the report of a plan to the front of `out` and answers its length.
pub fn report_into(plan: &[u8], out: &mut [u8]) -> Result<usize, Failure> {
    // SAFETY: both pairs are a slice's pointer and length; the function reads the plan, writes
    // only within `out`, and keeps neither.
    let Written { length, status } =
        unsafe { wazrelin_report(plan.as_ptr(), plan.len(), out.as_mut_ptr(), out.len()) };
    match status {
        0 => Ok(length),
        1 => Err(Failure::TooShort(length)),
        2 => Err(Failure::NoMemory),
        _ => Err(Failure::Status(status)),
    }
}

/// The report of a plan.
pub fn report(plan: &[u8]) -> Result<Vec<u8>, Failure> {
    let mut out = Vec::new();
    report_to(plan, &mut out)?;
    Ok(out)
}

/// Makes `out` the report of a plan. A buffer that is used again spares the second call that a
/// short one needs.
pub fn report_to(plan: &[u8], out: &mut Vec<u8>) -> Result<(), Failure> {
    out.resize(out.capacity(), 0);
    let length = match report_into(plan, out) {
        Err(Failure::TooShort(needed)) => {
            out.resize(needed, 0);
            report_into(plan, out)?
        }
        first => first?,
    };
    out.truncate(length);
    Ok(())
}

impl fmt::Display for Failure {
    fn fmt(&self, f: &mut fmt::Formatter<'_>) -> fmt::Result {
        match self {
            Self::TooShort(needed) => write!(f, "the report has {needed} bytes"),
            Self::NoMemory => f.write_str("memory failed"),
            Self::Status(status) => write!(f, "unknown status {status}"),
        }
    }
}

impl std::error::Error for Failure {}

//! The functions of libselector.a, with slices for pointers and lengths, and any policy word. The answer of an accepted
//! build or run is the result's length, that of any other accepted call 0.

use crate::Refusal;

unsafe extern "C" {
    fn selector_read_layout(layout: *const u8, length: usize) -> u64;

    fn selector_build_by_name(
        policy: u32,
        incoming: *const u8,
        incoming_length: usize,
        target: *const u8,
        target_length: usize,
        plan: *mut u8,
        plan_length: usize,
    ) -> u64;

    fn selector_build_by_number(
        policy: u32,
        source_index: u32,
        owner: u16,
        incoming: *const u8,
        incoming_length: usize,
        target: *const u8,
        target_length: usize,
        defaults: *const u8,
        defaults_length: usize,
        plan: *mut u8,
        plan_length: usize,
    ) -> u64;

    fn selector_check_plan(
        incoming: *const u8,
        incoming_length: usize,
        target: *const u8,
        target_length: usize,
        plan: *const u8,
        plan_length: usize,
    ) -> u64;

    fn selector_run(
        incoming: *const u8,
        incoming_length: usize,
        target: *const u8,
        target_length: usize,
        plan: *const u8,
        plan_length: usize,
        record: *const u8,
        record_length: usize,
        output: *mut u8,
        output_length: usize,
    ) -> u64;
}

/// An answer is number * 2^32 + rest.
fn answered(answer: u64) -> Result<usize, Refusal> {
    match Refusal::of(answer) {
        None => Ok(answer as usize),
        Some(refusal) => Err(refusal),
    }
}

// SAFETY of the calls below: a slice's pointer is not null and valid for its length; a buffer is lent for writing, so
// that nothing else refers to it and it overlaps no other slice.

/// `selector_read_layout`.
pub fn read_layout(layout: &[u8]) -> Result<usize, Refusal> {
    answered(unsafe { selector_read_layout(layout.as_ptr(), layout.len()) })
}

/// `selector_build_by_name`.
pub fn build_by_name(
    policy: u32,
    incoming: &[u8],
    target: &[u8],
    plan: &mut [u8],
) -> Result<usize, Refusal> {
    answered(unsafe {
        selector_build_by_name(
            policy,
            incoming.as_ptr(),
            incoming.len(),
            target.as_ptr(),
            target.len(),
            plan.as_mut_ptr(),
            plan.len(),
        )
    })
}

/// `selector_build_by_number`.
pub fn build_by_number(
    policy: u32,
    source_index: u32,
    owner: u16,
    incoming: &[u8],
    target: &[u8],
    defaults: &[u8],
    plan: &mut [u8],
) -> Result<usize, Refusal> {
    answered(unsafe {
        selector_build_by_number(
            policy,
            source_index,
            owner,
            incoming.as_ptr(),
            incoming.len(),
            target.as_ptr(),
            target.len(),
            defaults.as_ptr(),
            defaults.len(),
            plan.as_mut_ptr(),
            plan.len(),
        )
    })
}

/// `selector_check_plan`.
pub fn check_plan(incoming: &[u8], target: &[u8], plan: &[u8]) -> Result<usize, Refusal> {
    answered(unsafe {
        selector_check_plan(
            incoming.as_ptr(),
            incoming.len(),
            target.as_ptr(),
            target.len(),
            plan.as_ptr(),
            plan.len(),
        )
    })
}

/// `selector_run`.
pub fn run(
    incoming: &[u8],
    target: &[u8],
    plan: &[u8],
    record: &[u8],
    output: &mut [u8],
) -> Result<usize, Refusal> {
    answered(unsafe {
        selector_run(
            incoming.as_ptr(),
            incoming.len(),
            target.as_ptr(),
            target.len(),
            plan.as_ptr(),
            plan.len(),
            record.as_ptr(),
            record.len(),
            output.as_mut_ptr(),
            output.len(),
        )
    })
}

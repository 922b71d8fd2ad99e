//! The proved judge, linked into this process: `bench` times it and the plain one over the same memory. On x86-64 alone, since the
//! library is for nothing else. Here is the only unsafe code of the workspace.

use second::judge::Event;

extern "C" {
    // As include/dovetenon.h has it.
    fn dovetenon_judge_known(
        table: *const u16,
        table_len: usize,
        operation: u16,
        target: u16,
        stack: *const u16,
        stack_len: usize,
        uid: u32,
        gid: u32,
        ns: u32,
        allocation: *const u16,
        allocation_len: usize,
        allocation_uid: u32,
        allocation_gid: u32,
        allocation_ns: u32,
    ) -> u32;
}

/// The verdict, packed, under a table that is known to be well formed.
pub fn judge_known(table: &[u16], operation: u16, target: u16, event: &Event<'_>) -> u64 {
    // SAFETY: each pair is a slice's, and the function only reads what it is lent.
    let verdict = unsafe {
        dovetenon_judge_known(
            table.as_ptr(),
            table.len(),
            operation,
            target,
            event.stack.as_ptr(),
            event.stack.len(),
            event.uid,
            event.gid,
            event.namespace,
            event.allocation.as_ptr(),
            event.allocation.len(),
            event.allocation_uid,
            event.allocation_gid,
            event.allocation_namespace,
        )
    };
    verdict.into()
}

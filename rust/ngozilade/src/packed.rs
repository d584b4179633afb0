//! The C interface on slices: each answer is one word, packed as `include/ngozilade.h` says.

mod c {
    extern "C" {
        pub fn ngozilade_read(block: *const u8, block_bytes: usize) -> u64;

        pub fn ngozilade_check(
            block: *const u8,
            block_bytes: usize,
            binding: *const u8,
            binding_bytes: usize,
        ) -> u64;

        pub fn ngozilade_bind(
            block: *const u8,
            block_bytes: usize,
            method: u8,
            out: *mut u8,
            out_bytes: usize,
        ) -> u64;

        pub fn ngozilade_run_block(
            block: *const u8,
            block_bytes: usize,
            incoming: *const u16,
            incoming_words: usize,
            outgoing: *mut u16,
            outgoing_words: usize,
        ) -> u64;

        pub fn ngozilade_run_datapath(
            block: *const u8,
            block_bytes: usize,
            binding: *const u8,
            binding_bytes: usize,
            incoming: *const u16,
            incoming_words: usize,
            outgoing: *mut u16,
            outgoing_words: usize,
            registers: *mut u16,
            registers_words: usize,
        ) -> u64;
    }
}

// Each call below is sound for the same reason: a slice's pointer is not null and good for its length, what is lent to be written overlaps nothing
// else, and the library keeps no pointer.

pub fn read(block: &[u8]) -> u64 {
    unsafe { c::ngozilade_read(block.as_ptr(), block.len()) }
}

pub fn check(block: &[u8], binding: &[u8]) -> u64 {
    unsafe { c::ngozilade_check(block.as_ptr(), block.len(), binding.as_ptr(), binding.len()) }
}

pub fn bind(block: &[u8], method: u8, out: &mut [u8]) -> u64 {
    unsafe {
        c::ngozilade_bind(
            block.as_ptr(),
            block.len(),
            method,
            out.as_mut_ptr(),
            out.len(),
        )
    }
}

pub fn run_block(block: &[u8], incoming: &[u16], outgoing: &mut [u16]) -> u64 {
    unsafe {
        c::ngozilade_run_block(
            block.as_ptr(),
            block.len(),
            incoming.as_ptr(),
            incoming.len(),
            outgoing.as_mut_ptr(),
            outgoing.len(),
        )
    }
}

pub fn run_datapath(
    block: &[u8],
    binding: &[u8],
    incoming: &[u16],
    outgoing: &mut [u16],
    registers: &mut [u16],
) -> u64 {
    unsafe {
        c::ngozilade_run_datapath(
            block.as_ptr(),
            block.len(),
            binding.as_ptr(),
            binding.len(),
            incoming.as_ptr(),
            incoming.len(),
            outgoing.as_mut_ptr(),
            outgoing.len(),
            registers.as_mut_ptr(),
            registers.len(),
        )
    }
}

//! Stand-in for memory/mod.rs, and the addresses that the linker script would
//! give. The stack pool is the first 8,192 bytes of the arena, so `init` gives
//! all of it to idle; the rest of the arena follows it.

mod layout;
mod protection;
mod stack_pool;

pub(crate) use layout::{flash_block, ram_block, stack_pool_block};
pub use protection::{MemoryAccess, MemoryRegion};
pub(crate) use stack_pool::{STACK_POOL, StackPool, StackRegion};

pub(crate) const ARENA_WORDS: usize = 4096;

core::arch::global_asm!(
    ".pushsection .bss",
    ".balign 16",
    ".globl __flash_start, __flash_end, __ram_start, __ram_end",
    ".globl __heap_start, __heap_end, __kernel_stack_reserve",
    ".globl __stack_pool_start, __stack_pool_end",
    "__flash_start: __flash_end:",
    "__heap_start: __heap_end: __kernel_stack_reserve:",
    "__ram_start:",
    "__stack_pool_start: .skip 8192",
    "__stack_pool_end: .skip 8192",
    "__ram_end:",
    ".popsection",
);

#[derive(Clone, Copy, Debug, PartialEq, Eq)]
pub struct MemoryBlock {
    base: usize,
    size: usize,
}

impl MemoryBlock {
    pub const fn new(base: usize, size: usize) -> Self {
        Self { base, size }
    }

    pub const fn base(&self) -> usize {
        self.base
    }

    pub const fn size(&self) -> usize {
        self.size
    }

    pub const fn end(&self) -> usize {
        self.base + self.size
    }
}

pub fn init_heap() {}

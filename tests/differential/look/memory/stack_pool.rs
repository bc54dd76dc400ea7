// The published file, whole; after it, what lets the reference program choose
// the stretch that a task gets.
include!(concat!(env!("MINIRTOS_SRC"), "/kernel/src/memory/stack_pool.rs"));

impl StackRegion {
    pub(crate) const fn at(start: usize, size: usize) -> Self {
        Self { start, size }
    }
}

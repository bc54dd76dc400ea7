// The published file, whole; after it, what lets the reference program look in.
include!(concat!(env!("MINIRTOS_SRC"), "/kernel/src/synchronization/wait_queue.rs"));

impl WaitQueue {
    pub(crate) fn see(&self) -> &[TaskId] {
        &self.waiters
    }
}

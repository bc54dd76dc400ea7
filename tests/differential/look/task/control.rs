// The published file, whole; after it, what lets the reference program look in.
include!(concat!(env!("MINIRTOS_SRC"), "/kernel/src/task/control.rs"));

impl TaskControl {
    pub(crate) fn next_id() -> u32 {
        NEXT_TASK_ID.load(Ordering::Relaxed)
    }

    pub(crate) fn renew_ids() {
        NEXT_TASK_ID.store(0, Ordering::Relaxed);
    }
}

// The published file, whole; after it, what lets the reference program look in.
include!(concat!(env!("MINIRTOS_SRC"), "/kernel/src/synchronization/mutex.rs"));

pub(crate) type SeenMutex = (bool, Option<TaskId>, Option<TaskId>, &'static [TaskId]);

impl Mutex {
    pub(crate) fn see(&'static self) -> SeenMutex {
        let inner = unsafe { self.inner.lock_unchecked(|inner| &*(inner as *const MutexInner)) };

        (inner.locked, inner.owner, inner.handoff_to, inner.waiters.see())
    }

    pub(crate) fn renew(&self) {
        let new = Mutex::new().inner;
        unsafe { new.lock_unchecked(|new| self.inner.lock_unchecked(|old| core::mem::swap(old, new))) }
    }
}

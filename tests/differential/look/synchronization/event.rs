// The published file, whole; after it, what lets the reference program look in.
include!(concat!(env!("MINIRTOS_SRC"), "/kernel/src/synchronization/event.rs"));

impl Event {
    pub(crate) fn see(&'static self) -> (bool, &'static [crate::task::TaskId]) {
        let inner = unsafe { self.inner.lock_unchecked(|inner| &*(inner as *const EventInner)) };

        (inner.signaled, inner.waiters.see())
    }

    pub(crate) fn renew(&self) {
        let new = Event::new(false).inner;
        unsafe { new.lock_unchecked(|new| self.inner.lock_unchecked(|old| core::mem::swap(old, new))) }
    }
}

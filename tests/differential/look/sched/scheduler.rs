// The published file, whole; after it, what lets the reference program look in.
include!(concat!(env!("MINIRTOS_SRC"), "/kernel/src/sched/scheduler.rs"));

impl crate::interface::SchedulerLook for crate::interface::Door {
    fn see() -> crate::interface::Seen {
        let inner = unsafe {
            super::CURR_SCHEDULER
                .inner
                .lock_unchecked(|inner| &*(inner as *const SchedulerInner))
        };

        crate::interface::Seen {
            tasks: &inner.tasks,
            current: inner.current.raw(),
            task_count: inner.task_count,
            tick_count: inner.tick_count,
            started: inner.started,
        }
    }

    fn reap_one(cs: &CriticalSection) -> Option<StackRegion> {
        super::CURR_SCHEDULER.reap_one(cs)
    }

    fn renew() {
        unsafe {
            super::CURR_SCHEDULER
                .inner
                .lock_unchecked(|inner| *inner = SchedulerInner::new());
        }
        super::SCHEDULER_INITIALIZED.store(false, core::sync::atomic::Ordering::Relaxed);
    }

    fn empty(slot: usize) {
        unsafe {
            super::CURR_SCHEDULER.inner.lock_unchecked(|inner| {
                inner.task_count -= inner.tasks[slot].take().is_some() as usize;
            });
        }
    }

    fn set_current(slot: usize) {
        unsafe {
            super::CURR_SCHEDULER
                .inner
                .lock_unchecked(|inner| inner.current = TaskId::from_raw(slot));
        }
    }

    fn pick(tasks: [Option<TaskControl>; MAX_TASKS], current: usize) -> usize {
        let mut inner = SchedulerInner::new();
        inner.tasks = tasks;
        inner.current = TaskId::from_raw(current);
        inner.next_task().raw()
    }
}

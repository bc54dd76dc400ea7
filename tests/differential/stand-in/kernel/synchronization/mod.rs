//! Stand-in for synchronization/mod.rs: the modules and their names.

mod event;
mod lock;
mod mutex;
mod semaphore;
mod wait_queue;

pub mod interface {
    pub trait Lock {
        type Data;

        fn lock<'a, R>(&'a self, f: impl FnOnce(&'a mut Self::Data) -> R) -> R;
    }

    pub trait ReadWriteEx {
        type Data;

        fn write<'a, R>(&'a self, f: impl FnOnce(&'a mut Self::Data) -> R) -> R;

        fn read<'a, R>(&'a self, f: impl FnOnce(&'a Self::Data) -> R) -> R;
    }
}

pub use interface::Lock;

pub(crate) use event::Event;
pub(crate) use lock::{CriticalSection, CriticalSectionLock, IrqLock, critical_section};
pub(crate) use mutex::Mutex;
pub(crate) use semaphore::Semaphore;
pub(crate) use wait_queue::WaitQueue;

//! Stand-in for the crate `minirtos_abi`, which is not published: the names
//! that the published kernel files use, and no more.
#![no_std]

use core::marker::PhantomData;

#[derive(Clone, Copy, Debug, PartialEq, Eq)]
pub struct TaskId(usize);

impl TaskId {
    pub const fn from_raw(raw: usize) -> Self {
        Self(raw)
    }

    pub const fn raw(self) -> usize {
        self.0
    }
}

/// The order is that of the numbers: the smallest is the best.
#[derive(Clone, Copy, Debug, PartialEq, Eq, PartialOrd, Ord)]
pub struct Priority(pub u8);

pub type TaskEntry = extern "C" fn(*mut ());

#[derive(Clone, Copy, Debug, PartialEq, Eq)]
pub enum SysError {
    NoResource,
    NoMemory,
    NotFound,
    InvalidState,
    InvalidArgument,
    Busy,
}

pub const fn align_up(value: usize, align: usize) -> usize {
    (value + align - 1) & !(align - 1)
}

#[derive(Clone, Copy)]
pub struct EndpointHandle;

#[derive(Clone, Copy)]
pub struct MessageData;

#[derive(Clone, Copy)]
pub struct ReceivedRequest;

#[derive(Clone, Copy)]
pub struct UserMutPtr<T>(PhantomData<T>);

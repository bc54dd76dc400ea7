//! Stand-in for the crate `heapless`: a vector of at most N elements, with
//! the operations that the published kernel files use.
#![no_std]

use core::mem::MaybeUninit;
use core::ops::{Deref, DerefMut};
use core::{ptr, slice};

pub struct Vec<T: Copy, const N: usize> {
    items: [MaybeUninit<T>; N],
    len: usize,
}

impl<T: Copy, const N: usize> Vec<T, N> {
    pub const fn new() -> Self {
        Self {
            items: [const { MaybeUninit::uninit() }; N],
            len: 0,
        }
    }

    /// A full vector hands the item back and stays as it is.
    pub fn push(&mut self, item: T) -> Result<(), T> {
        if self.len == N {
            return Err(item);
        }
        self.items[self.len] = MaybeUninit::new(item);
        self.len += 1;
        Ok(())
    }

    pub fn insert(&mut self, index: usize, item: T) -> Result<(), T> {
        assert!(index <= self.len, "insert past the end");
        if self.len == N {
            return Err(item);
        }
        unsafe {
            let at = self.items.as_mut_ptr().add(index);
            ptr::copy(at, at.add(1), self.len - index);
        }
        self.items[index] = MaybeUninit::new(item);
        self.len += 1;
        Ok(())
    }

    /// Later items move one place down; their order stays.
    pub fn remove(&mut self, index: usize) -> T {
        let item = self[index];
        unsafe {
            let at = self.items.as_mut_ptr().add(index);
            ptr::copy(at.add(1), at, self.len - index - 1);
        }
        self.len -= 1;
        item
    }
}

impl<T: Copy, const N: usize> Deref for Vec<T, N> {
    type Target = [T];

    fn deref(&self) -> &[T] {
        unsafe { slice::from_raw_parts(self.items.as_ptr() as *const T, self.len) }
    }
}

impl<T: Copy, const N: usize> DerefMut for Vec<T, N> {
    fn deref_mut(&mut self) -> &mut [T] {
        unsafe { slice::from_raw_parts_mut(self.items.as_mut_ptr() as *mut T, self.len) }
    }
}

impl<'a, T: Copy, const N: usize> IntoIterator for &'a Vec<T, N> {
    type Item = &'a T;
    type IntoIter = slice::Iter<'a, T>;

    fn into_iter(self) -> slice::Iter<'a, T> {
        self.iter()
    }
}

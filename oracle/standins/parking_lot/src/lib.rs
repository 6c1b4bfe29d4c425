//! Stands for parking_lot: the lock around one leaf. A guard takes the value
//! out of the lock and puts it back when dropped.
//!
//! Assumes: one thread, and no two guards on one leaf at a time, not even
//! readers; a second guard panics.
#![forbid(unsafe_code)]

use std::cell::Cell;
use std::fmt;
use std::sync::Arc;

use lock_api::{ArcRwLockReadGuard, ArcRwLockWriteGuard, Guard};

pub struct RawRwLock;

pub struct RwLock<T> {
    value: Cell<Option<T>>,
}

impl<T> RwLock<T> {
    pub fn new(value: T) -> RwLock<T> {
        RwLock {
            value: Cell::new(Some(value)),
        }
    }

    pub fn write_arc(self: &Arc<Self>) -> ArcRwLockWriteGuard<RawRwLock, T> {
        Guard::new(self.clone())
    }

    pub fn read_arc(self: &Arc<Self>) -> ArcRwLockReadGuard<RawRwLock, T> {
        Guard::new(self.clone())
    }
}

impl<T> fmt::Debug for RwLock<T> {
    fn fmt(&self, out: &mut fmt::Formatter<'_>) -> fmt::Result {
        out.write_str("RwLock")
    }
}

pub mod lock_api {
    use std::marker::PhantomData;
    use std::ops::{Deref, DerefMut};
    use std::sync::Arc;

    use crate::RwLock;

    pub type ArcRwLockReadGuard<R, T> = Guard<R, T>;
    pub type ArcRwLockWriteGuard<R, T> = Guard<R, T>;

    pub struct Guard<R, T> {
        lock: Arc<RwLock<T>>,
        value: Option<T>,
        raw: PhantomData<R>,
    }

    impl<R, T> Guard<R, T> {
        pub(crate) fn new(lock: Arc<RwLock<T>>) -> Self {
            let value = lock.value.take();
            assert!(value.is_some(), "this lock is held already");
            Guard {
                lock,
                value,
                raw: PhantomData,
            }
        }

        pub fn downgrade(self) -> Self {
            self
        }
    }

    impl<R, T> Deref for Guard<R, T> {
        type Target = T;

        fn deref(&self) -> &T {
            self.value.as_ref().unwrap()
        }
    }

    impl<R, T> DerefMut for Guard<R, T> {
        fn deref_mut(&mut self) -> &mut T {
            self.value.as_mut().unwrap()
        }
    }

    impl<R, T> Drop for Guard<R, T> {
        fn drop(&mut self) {
            self.lock.value.set(self.value.take());
        }
    }
}

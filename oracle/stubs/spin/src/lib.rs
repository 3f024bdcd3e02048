//! Stands for `spin`: a spinning mutex, and a value made at its first use, which the oracle may replace.
#![no_std]

use core::cell::UnsafeCell;
use core::ops::Deref;
use core::sync::atomic::{AtomicBool, Ordering};
use mutex::SpinMutex;

/// Locks.
pub mod mutex {
    use core::cell::UnsafeCell;
    use core::hint;
    use core::ops::{Deref, DerefMut};
    use core::sync::atomic::{AtomicBool, Ordering};

    /// A value that one holder at a time uses; the others spin.
    pub struct SpinMutex<T> {
        locked: AtomicBool,
        value: UnsafeCell<T>,
    }

    // SAFETY: a guard is the one access to the value, and there is one guard at a time.
    unsafe impl<T: Send> Sync for SpinMutex<T> {}

    impl<T> SpinMutex<T> {
        /// Unlocked.
        pub const fn new(value: T) -> Self {
            Self { locked: AtomicBool::new(false), value: UnsafeCell::new(value) }
        }

        /// Waits for the lock.
        #[inline]
        pub fn lock(&self) -> SpinMutexGuard<'_, T> {
            while self.locked.swap(true, Ordering::Acquire) {
                hint::spin_loop();
            }
            SpinMutexGuard(self)
        }
    }

    /// The lock, held.
    pub struct SpinMutexGuard<'a, T>(&'a SpinMutex<T>);

    impl<T> Deref for SpinMutexGuard<'_, T> {
        type Target = T;

        #[inline]
        fn deref(&self) -> &T {
            // SAFETY: this guard holds the lock.
            unsafe { &*self.0.value.get() }
        }
    }

    impl<T> DerefMut for SpinMutexGuard<'_, T> {
        #[inline]
        fn deref_mut(&mut self) -> &mut T {
            // SAFETY: this guard holds the lock.
            unsafe { &mut *self.0.value.get() }
        }
    }

    impl<T> Drop for SpinMutexGuard<'_, T> {
        #[inline]
        fn drop(&mut self) {
            self.0.locked.store(false, Ordering::Release);
        }
    }
}

/// A value made at its first use.
pub struct LazyLock<T, F = fn() -> T> {
    ready: AtomicBool,
    making: SpinMutex<()>,
    value: UnsafeCell<Option<T>>,
    make: F,
}

// SAFETY: the value is written with `making` held and before `ready` is set, or by `set`, whose caller is alone.
unsafe impl<T: Send + Sync, F: Send + Sync> Sync for LazyLock<T, F> {}

impl<T, F> LazyLock<T, F> {
    /// Not made yet.
    pub const fn new(make: F) -> Self {
        Self { ready: AtomicBool::new(false), making: SpinMutex::new(()), value: UnsafeCell::new(None), make }
    }

    /// Puts in a value, whether one was made or not. The real crate has no such function.
    ///
    /// # Safety
    ///
    /// No reference to the value is held, and no other thread uses it meanwhile.
    pub unsafe fn set(this: &Self, value: T) {
        // SAFETY: as the caller promises.
        unsafe { *this.value.get() = Some(value) };
        this.ready.store(true, Ordering::Release);
    }
}

impl<T, F: Fn() -> T> LazyLock<T, F> {
    #[cold]
    fn make(&self) {
        let _making = self.making.lock();
        if !self.ready.load(Ordering::Acquire) {
            // SAFETY: `making` is held and nobody reads before `ready` is set.
            unsafe { *self.value.get() = Some((self.make)()) };
            self.ready.store(true, Ordering::Release);
        }
    }
}

impl<T, F: Fn() -> T> Deref for LazyLock<T, F> {
    type Target = T;

    #[inline]
    fn deref(&self) -> &T {
        if !self.ready.load(Ordering::Acquire) {
            self.make();
        }
        // SAFETY: once `ready` is set the value is there, and `set` alone writes it.
        unsafe { (*self.value.get()).as_ref().unwrap_unchecked() }
    }
}

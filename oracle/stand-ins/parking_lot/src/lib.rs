//! Stand-in for the crate `parking_lot`: a lock over the standard library's, without poisoning, and a read guard that can be
//! narrowed to a part of what it guards. As in the crate, narrowing allocates nothing.

use std::{
    marker::PhantomData,
    mem::{size_of, MaybeUninit},
    ops::{Deref, DerefMut},
};

#[derive(Debug, Default)]
pub struct RwLock<T>(std::sync::RwLock<T>);

pub struct RwLockReadGuard<'a, T>(std::sync::RwLockReadGuard<'a, T>);

pub struct RwLockWriteGuard<'a, T>(std::sync::RwLockWriteGuard<'a, T>);

/// A guard of a part: the part, and the lock held as long as the guard lives.
pub struct MappedRwLockReadGuard<'a, U: ?Sized> {
    part: *const U,
    held: Held,
    release: unsafe fn(&mut Held),
    lock: PhantomData<&'a ()>,
}

/// Room for the guard of the whole, whatever that is.
type Held = MaybeUninit<[usize; 2]>;

/// Drops the guard of a `T` that is held.
unsafe fn release<T>(held: &mut Held) {
    std::ptr::drop_in_place(held.as_mut_ptr() as *mut std::sync::RwLockReadGuard<'_, T>)
}

impl<T> RwLock<T> {
    pub fn new(value: T) -> Self {
        RwLock(std::sync::RwLock::new(value))
    }

    pub fn read(&self) -> RwLockReadGuard<'_, T> {
        RwLockReadGuard(self.0.read().unwrap_or_else(|poisoned| poisoned.into_inner()))
    }

    pub fn write(&self) -> RwLockWriteGuard<'_, T> {
        RwLockWriteGuard(self.0.write().unwrap_or_else(|poisoned| poisoned.into_inner()))
    }
}

impl<'a, T> RwLockReadGuard<'a, T> {
    pub fn map<U: ?Sized, F: FnOnce(&T) -> &U>(guard: Self, part_of: F) -> MappedRwLockReadGuard<'a, U> {
        const { assert!(size_of::<std::sync::RwLockReadGuard<'_, T>>() <= size_of::<Held>()) };
        let part: *const U = part_of(&guard.0);
        let mut held = Held::uninit();
        unsafe { (held.as_mut_ptr() as *mut std::sync::RwLockReadGuard<'a, T>).write(guard.0) };
        MappedRwLockReadGuard { part, held, release: release::<T>, lock: PhantomData }
    }
}

impl<T> Deref for RwLockReadGuard<'_, T> {
    type Target = T;

    fn deref(&self) -> &T {
        &self.0
    }
}

impl<T> Deref for RwLockWriteGuard<'_, T> {
    type Target = T;

    fn deref(&self) -> &T {
        &self.0
    }
}

impl<T> DerefMut for RwLockWriteGuard<'_, T> {
    fn deref_mut(&mut self) -> &mut T {
        &mut self.0
    }
}

impl<U: ?Sized> Deref for MappedRwLockReadGuard<'_, U> {
    type Target = U;

    fn deref(&self) -> &U {
        // The part lies in what the held lock guards, and that does not move while it is held.
        unsafe { &*self.part }
    }
}

impl<U: ?Sized> Drop for MappedRwLockReadGuard<'_, U> {
    fn drop(&mut self) {
        // Written when the guard was made, and released here alone.
        unsafe { (self.release)(&mut self.held) }
    }
}

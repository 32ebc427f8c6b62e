//! Stands for MartyPC's `Updatable`, which document 01 takes as a plain cell: it holds a value and does nothing else. Left out: the marks that tell
//! the display whether the value changed. No cell is ever dirty.

use std::ops::{Deref, DerefMut};

#[derive(Clone, Debug)]
pub struct Updatable<T> {
    value: T,
}

impl<T> Updatable<T> {
    pub fn new(value: T) -> Self {
        Self { value }
    }

    pub fn update(&mut self, value: T) {
        self.value = value;
    }

    pub fn set(&mut self, value: T) {
        self.value = value;
    }

    pub fn get(&self) -> &T {
        &self.value
    }

    pub fn is_dirty(&self) -> bool {
        false
    }

    pub fn clean(&mut self) {}
}

impl<T> Deref for Updatable<T> {
    type Target = T;
    fn deref(&self) -> &T {
        &self.value
    }
}

impl<T> DerefMut for Updatable<T> {
    fn deref_mut(&mut self) -> &mut T {
        &mut self.value
    }
}

//! Stands for the crate `ringbuf`: the original's `Channel::tick` takes a producer and never uses it. Left out: everything but the type's name.

use std::marker::PhantomData;

pub struct Producer<T> {
    held: PhantomData<T>,
}

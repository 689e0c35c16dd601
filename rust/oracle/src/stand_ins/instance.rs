//! An instance that is never looked into: its address, any 64 bits, is all that the stack compares.

use crate::engine::executor::handler::state::{Inst, Mem0Len, Mem0Ptr};
use std::{marker::PhantomData, ptr};

#[derive(Debug)]
pub struct InstanceEntity;

/// A thin pointer to something that may be unsized.
#[derive(Debug)]
pub struct ThinPtr<T: ?Sized> {
    data: *const (),
    marker: PhantomData<*const T>,
}

impl<T: ?Sized> ThinPtr<T> {
    pub fn from_ref(value: &T) -> Self {
        Self {
            data: ptr::from_ref(value).cast(),
            marker: PhantomData,
        }
    }

    pub fn expose_provenance(self) -> usize {
        self.data.expose_provenance()
    }

    /// # Safety
    ///
    /// None here, since nothing ever looks behind the pointer; wasmi's own asks for an exposed one.
    pub unsafe fn with_exposed_provenance(addr: usize) -> Self {
        Self {
            data: ptr::with_exposed_provenance(addr),
            marker: PhantomData,
        }
    }
}

impl<T: ?Sized> PartialEq for ThinPtr<T> {
    fn eq(&self, other: &Self) -> bool {
        self.data == other.data
    }
}

/// No instance has a memory here.
pub fn extract_mem0(_instance: Inst) -> (Mem0Ptr, Mem0Len) {
    (Mem0Ptr::from(ptr::null_mut()), Mem0Len::from(0))
}

//! The Rust's private fields and its pointers as plain numbers. It reads, and makes pointers from numbers; it changes nothing.

use super::*;

impl Ip {
    /// An ip is never followed here, so any number is one.
    pub fn from_number(number: u64) -> Self {
        Self {
            value: ptr::without_provenance(number as usize),
        }
    }

    pub fn number(self) -> u64 {
        self.value.addr() as u64
    }
}

impl Inst {
    /// An instance is never looked into here, so any number is one.
    pub fn from_number(number: u64) -> Self {
        // SAFETY: the stand-in asks for nothing.
        Self::from(unsafe { ThinPtr::with_exposed_provenance(number as usize) })
    }

    pub fn number(self) -> u64 {
        self.as_ptr().expose_provenance() as u64
    }
}

impl Sp {
    pub fn number(self) -> u64 {
        self.value.addr() as u64
    }
}

impl HostFrame {
    pub fn from_numbers(start: usize, end: usize, len_params: usize, len_results: usize) -> Self {
        Self::new(SpOffset::from(start), SpOffset::from(end), len_params, len_results)
    }

    /// Start, end, parameters, results.
    pub fn numbers(self) -> (usize, usize, usize, usize) {
        (self.start.into_inner(), self.end.into_inner(), self.len_params, self.len_results)
    }
}

impl Stack {
    /// How many frames there are.
    pub fn count(&self) -> usize {
        self.frames.frames.len()
    }

    /// How many cells there are.
    pub fn cells_len(&self) -> usize {
        self.values.cells.len()
    }

    /// How many cells fit without reallocation.
    pub fn usable(&self) -> usize {
        self.values.usable
    }

    /// The newest frame's start, 0 without frames.
    pub fn top_start(&self) -> usize {
        self.frames.top_start().into_inner()
    }

    /// The top start's `Sp`, which is what the requests take as `caller_sp`.
    pub fn top_sp(&mut self) -> Sp {
        let start = self.frames.top_start();
        self.values.sp(start)
    }

    /// How many cells an `Sp` lies above the base.
    pub fn offset_of(&self, sp: Sp) -> usize {
        self.offset_of_cell(sp.value)
    }

    /// How many cells a pointer to a cell lies above the base.
    pub fn offset_of_cell(&self, cell: *const Cell) -> usize {
        cell.addr().wrapping_sub(self.values.cells.as_ptr().addr()) / mem::size_of::<Cell>()
    }

    /// A frame's ip, start and debt, the oldest frame first.
    pub fn frame(&self, index: usize) -> (u64, usize, Option<u64>) {
        let frame = &self.frames.frames[index];
        (frame.ip.number(), frame.start.into_inner(), frame.instance.map(Inst::number))
    }

    /// The current instance.
    pub fn current(&self) -> Option<u64> {
        self.frames.instance.map(Inst::number)
    }

    /// A cell that has been written. What lies in one that has not is unspecified.
    pub fn cell(&self, index: usize) -> u64 {
        self.values.cells[index].into()
    }
}

//! Registers in place: what a host changes in the record that it lends.
use crate::Registers;

// Safety of every call below: `&mut Registers` is a true and aligned pointer to one struct, never null, and overlaps nothing.
unsafe extern "C" {
    fn cattlecleat_put_ireg(r: *mut Registers, v: u64);
    fn cattlecleat_put_freg32(r: *mut Registers, v: f32);
    fn cattlecleat_put_freg64(r: *mut Registers, v: f64);
    fn cattlecleat_put_registers(r: *mut Registers, ireg: u64, freg32: f32, freg64: f64);
    fn cattlecleat_zero_registers(r: *mut Registers);
}

/// In place, by the archive's proved functions. Each changes what it names and keeps the rest bit for bit, NaNs too; none refuses.
///
/// ```
/// use cattlecleat::Registers;
///
/// let mut regs = Registers::default();
/// regs.put_all(7, -0.0, 0.5);
/// regs.put_freg64(f64::from_bits(0x7FF0_0000_0000_0001));
/// assert_eq!((regs.ireg, regs.freg32.to_bits(), regs.freg64.to_bits()), (7, 0x8000_0000, 0x7FF0_0000_0000_0001));
/// regs.zero();
/// assert_eq!(regs, Registers::default());
/// ```
///
/// The registers of a state that the host keeps are changed so too:
///
/// ```
/// use cattlecleat::{State, raw};
///
/// let mut state = State { current_flag: 1, current: 9, ..State::default() };
/// state.regs.put_ireg(7);
/// state.regs.put_freg32(1.5);
/// assert_eq!((state.current, raw::read_registers(state)), (9, state.regs));
/// assert_eq!((state.regs.ireg, state.regs.freg32, state.regs.freg64), (7, 1.5, 0.0));
/// ```
impl Registers {
    /// Stores the integer register.
    #[inline]
    pub fn put_ireg(&mut self, v: u64) {
        unsafe { cattlecleat_put_ireg(self, v) }
    }

    /// Stores the f32 register.
    #[inline]
    pub fn put_freg32(&mut self, v: f32) {
        unsafe { cattlecleat_put_freg32(self, v) }
    }

    /// Stores the f64 register.
    #[inline]
    pub fn put_freg64(&mut self, v: f64) {
        unsafe { cattlecleat_put_freg64(self, v) }
    }

    /// Stores all three.
    #[inline]
    pub fn put_all(&mut self, ireg: u64, freg32: f32, freg64: f64) {
        unsafe { cattlecleat_put_registers(self, ireg, freg32, freg64) }
    }

    /// Zeros all three: every bit is 0.
    #[inline]
    pub fn zero(&mut self) {
        unsafe { cattlecleat_zero_registers(self) }
    }
}

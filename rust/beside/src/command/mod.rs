//! The subcommands, one file each. Each is given its arguments and says whether all is well; an error is a wrong argument.

pub mod again;
pub mod compare;
#[cfg(target_arch = "x86_64")]
pub mod gate;
#[cfg(target_arch = "x86_64")]
pub mod said;

/// True where all is well.
pub type Verdict = Result<bool, String>;

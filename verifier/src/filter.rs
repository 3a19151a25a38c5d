//! A filter of system calls, by libseccomp: what isn't allowed fails with an error, and the process goes on.

use std::ffi::CString;
use std::io;

use libc::c_int;
use seccomp_sys as scmp;
use seccomp_sys::{scmp_arg_cmp, scmp_compare, scmp_filter_ctx};

/// What an argument of a call has to be. Arguments are counted from 0.
#[derive(Clone, Copy)]
pub enum Only {
    /// The bits of the mask are these; the others may be any.
    Bits { argument: u32, mask: u64, bits: u64 },
    Equal { argument: u32, value: u64 },
}

pub struct Filter(*mut scmp_filter_ctx);

impl Filter {
    /// One that refuses every call with this error.
    pub fn refusing(error: c_int) -> io::Result<Filter> {
        // SAFETY: the call takes a number, and what it returns is released once.
        let context = unsafe { scmp::seccomp_init(scmp::SCMP_ACT_ERRNO(error as u32)) };
        if context.is_null() { Err(io::ErrorKind::OutOfMemory.into()) } else { Ok(Filter(context)) }
    }

    /// Allows a call if its arguments are as they should be. One that this architecture lacks is left out.
    pub fn allow(&mut self, call: &str, only: &[Only]) -> io::Result<()> {
        self.add(scmp::SCMP_ACT_ALLOW, call, only)
    }

    /// Has a call fail with another error than the rest.
    pub fn fail(&mut self, call: &str, error: c_int) -> io::Result<()> {
        self.add(scmp::SCMP_ACT_ERRNO(error as u32), call, &[])
    }

    fn add(&mut self, action: u32, call: &str, only: &[Only]) -> io::Result<()> {
        let name = CString::new(call)?;
        // SAFETY: the name ends with its NUL, and the call keeps no pointer to it.
        let number = unsafe { scmp::seccomp_syscall_resolve_name(name.as_ptr()) };
        if number == scmp::__NR_SCMP_ERROR {
            return Err(io::Error::new(io::ErrorKind::Unsupported, format!("libseccomp doesn't know {call}")));
        }
        let tests: Vec<scmp_arg_cmp> = only.iter().map(|only| only.test()).collect();
        // SAFETY: the pointer and the number are of one list, and the call keeps nothing of it.
        done(unsafe { scmp::seccomp_rule_add_array(self.0, action, number, tests.len() as u32, tests.as_ptr()) })
    }

    /// Filters the calls of this thread from now on, and those of all threads that it starts. Nothing takes it back.
    pub fn load(self) -> io::Result<()> {
        // SAFETY: the filter is there until it is dropped.
        done(unsafe { scmp::seccomp_load(self.0) })
    }
}

impl Drop for Filter {
    fn drop(&mut self) {
        // SAFETY: nothing else has the pointer.
        unsafe { scmp::seccomp_release(self.0) }
    }
}

impl Only {
    fn test(&self) -> scmp_arg_cmp {
        match *self {
            Only::Bits { argument, mask, bits } => {
                scmp_arg_cmp { arg: argument, op: scmp_compare::SCMP_CMP_MASKED_EQ, datum_a: mask, datum_b: bits }
            }
            Only::Equal { argument, value } => {
                scmp_arg_cmp { arg: argument, op: scmp_compare::SCMP_CMP_EQ, datum_a: value, datum_b: 0 }
            }
        }
    }
}

/// The library returns the number of an error as a negative one.
fn done(status: c_int) -> io::Result<()> {
    if status < 0 { Err(io::Error::from_raw_os_error(-status)) } else { Ok(()) }
}

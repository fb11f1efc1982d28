//! The few calls of the system that the tests need, declared by hand since no crate from a registry is to be had.

use core::ffi::{c_int, c_long, c_void};

pub const SIGKILL: c_int = 9;
pub const SIGSEGV: c_int = 11;
pub const SIGSTOP: c_int = 19;
pub const SIGTRAP: c_int = 5;

pub const PTRACE_TRACEME: c_long = 0;
pub const PTRACE_CONT: c_long = 7;
pub const PTRACE_SINGLESTEP: c_long = 9;
pub const PTRACE_GETREGS: c_long = 12;
pub const PTRACE_SETREGS: c_long = 13;
pub const PTRACE_SETOPTIONS: c_long = 0x4200;
pub const PTRACE_GETSIGINFO: c_long = 0x4202;
/// The child dies with its tracer, so that a failed test leaves nothing behind.
pub const PTRACE_O_EXITKILL: c_long = 0x0010_0000;

/// The number of mprotect among the system's calls.
pub const SYS_MPROTECT: u64 = 10;

unsafe extern "C" {
    pub fn fork() -> c_int;
    pub fn ptrace(request: c_long, pid: c_int, address: *mut c_void, data: *mut c_void) -> c_long;
    pub fn waitpid(pid: c_int, status: *mut c_int, options: c_int) -> c_int;
    pub fn raise(signal: c_int) -> c_int;
    pub fn kill(pid: c_int, signal: c_int) -> c_int;
    pub fn _exit(status: c_int) -> !;
    pub fn pause() -> c_int;
    pub fn alarm(seconds: core::ffi::c_uint) -> core::ffi::c_uint;
    fn syscall(number: c_long, ...) -> c_long;
    /// A system call instruction at a known address, to which the tracer sends the child when it changes the child's pages.
    pub fn domain_stepping_syscall();
}

core::arch::global_asm!(
    ".globl domain_stepping_syscall",
    "domain_stepping_syscall:",
    "syscall",
    "int3",
);

/// The registers as the system hands them over.
#[repr(C)]
#[derive(Clone, Copy, Default)]
pub struct Registers {
    pub r15: u64,
    pub r14: u64,
    pub r13: u64,
    pub r12: u64,
    pub rbp: u64,
    pub rbx: u64,
    pub r11: u64,
    pub r10: u64,
    pub r9: u64,
    pub r8: u64,
    pub rax: u64,
    pub rcx: u64,
    pub rdx: u64,
    pub rsi: u64,
    pub rdi: u64,
    pub orig_rax: u64,
    pub rip: u64,
    pub cs: u64,
    pub eflags: u64,
    pub rsp: u64,
    pub ss: u64,
    pub fs_base: u64,
    pub gs_base: u64,
    pub ds: u64,
    pub es: u64,
    pub fs: u64,
    pub gs: u64,
}

/// What the system tells of a signal: for a fault, the address is the third long word.
#[repr(C)]
pub struct SignalInfo(pub [u64; 16]);

impl SignalInfo {
    pub fn address(&self) -> usize {
        self.0[2] as usize
    }
}

/// How a child stands after it was waited for.
#[derive(Clone, Copy, Debug, PartialEq, Eq)]
pub enum Status {
    Stopped(c_int),
    Exited(c_int),
    Killed(c_int),
}

/// Waits for the child.
pub fn wait(pid: c_int) -> Status {
    let mut status = 0;
    let got = unsafe { waitpid(pid, &mut status, 0) };
    assert_eq!(got, pid, "waiting for a child of this process");
    if status & 0xFF == 0x7F {
        Status::Stopped(status >> 8 & 0xFF)
    } else if status & 0x7F == 0 {
        Status::Exited(status >> 8 & 0xFF)
    } else {
        Status::Killed(status & 0x7F)
    }
}

/// A timer that ends this very process by SIGKILL. The processor on which the process runs then stops it in the middle of whatever it
/// does, which another process could not time so closely.
pub struct EndTimer(c_int);

impl EndTimer {
    pub fn new() -> Option<Self> {
        // The system's event: a value, the signal, and the way in which it is told (0: as a signal).
        let event: [u32; 16] = [0, 0, SIGKILL as u32, 0, 0, 0, 0, 0, 0, 0, 0, 0, 0, 0, 0, 0];
        let mut timer = 0;
        let done = unsafe { syscall(222, 1 as c_long, &raw const event, &raw mut timer) };
        (done == 0).then_some(EndTimer(timer))
    }

    /// Starts the timer: no process after this many nanoseconds.
    pub fn start(&self, nanoseconds: u64) {
        let times: [u64; 4] = [
            0,
            0,
            nanoseconds / 1_000_000_000,
            nanoseconds.max(1) % 1_000_000_000,
        ];
        unsafe {
            syscall(
                223,
                self.0 as c_long,
                0 as c_long,
                &raw const times,
                core::ptr::null_mut::<u64>(),
            )
        };
    }
}

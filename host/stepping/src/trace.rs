//! One call of the compiled library in a child process, seen store by store, in either of two ways.
//!
//! [`Way::Guarded`]: the child's pages of the three buffers may be read and not written. An instruction that stores into one of them
//! faults before it has done anything; the tracer then lets that one buffer be written, has the child make that single instruction,
//! takes a copy, and forbids writing again. So no store is missed, not even one that puts the value that stood there.
//!
//! [`Way::Stepped`] and [`Way::Whole`]: every instruction is stepped, with writable pages, and the buffers are compared after each
//! one. Since a call clears scratch arrays before its first store, which may be one step for each byte, `Stepped` lets the child run on
//! guarded pages up to that store.

use crate::sys::{self, Registers, SignalInfo, Status};
use core::ffi::{c_int, c_long, c_void};
use domain_lend::pages::{Arena, Pages, READ, READ_WRITE, Side, Stretch};
use domain_lend::{Lent, Outs};
use domain_model::{Buffer, Buffers, Call, Reply, Sizes};

/// How the child is followed.
#[derive(Clone, Copy, PartialEq, Eq, Debug)]
pub enum Way {
    /// Every store is seen, and its address.
    Guarded,
    /// Every instruction from the first store on is stepped, and every change is seen.
    Stepped,
    /// Every instruction of the call is stepped.
    Whole,
}

/// One instruction that stored into a lent buffer.
pub struct Stored {
    /// The address of the instruction.
    pub instruction: u64,
    /// The buffer and the byte at which the store began; none when every instruction was stepped.
    pub place: Option<(Buffer, usize)>,
    /// The buffers after it.
    pub left: Buffers,
}

/// What was seen of one call.
pub struct Trace {
    pub stores: Vec<Stored>,
    /// The instructions stepped one by one.
    pub instructions: u64,
    pub told: Told,
}

/// What the child leaves in a shared page: the number, and the out parameters as the call set them.
pub struct Told {
    code: u32,
    outs: Outs,
}

impl Told {
    fn nothing() -> Told {
        Told {
            code: u32::MAX,
            outs: Outs::new(),
        }
    }

    pub fn reply(&self, call: &Call) -> Reply {
        self.outs.reply(call, self.code)
    }
}

/// Why there is no trace.
#[derive(Debug)]
pub enum Failure {
    /// The machine does not allow a process to be traced.
    NotAllowed(String),
    /// The call did something that no call may do.
    Wrong(String),
}

/// Exit status of a child that may not be traced.
const REFUSED: c_int = 77;

struct Child {
    pid: c_int,
    over: bool,
}

impl Drop for Child {
    fn drop(&mut self) {
        if !self.over {
            unsafe { sys::kill(self.pid, sys::SIGKILL) };
            sys::wait(self.pid);
        }
    }
}

impl Child {
    fn request(&self, request: c_long, data: *mut c_void) -> Result<(), Failure> {
        if unsafe { sys::ptrace(request, self.pid, core::ptr::null_mut(), data) } == -1 {
            return Err(Failure::NotAllowed(format!(
                "ptrace request {request} was refused: {}",
                std::io::Error::last_os_error()
            )));
        }
        Ok(())
    }

    fn registers(&self) -> Result<Registers, Failure> {
        let mut registers = Registers::default();
        self.request(sys::PTRACE_GETREGS, (&raw mut registers).cast())?;
        Ok(registers)
    }

    fn set_registers(&self, registers: &Registers) -> Result<(), Failure> {
        self.request(
            sys::PTRACE_SETREGS,
            (&raw const *registers).cast_mut().cast(),
        )
    }

    fn fault_address(&self) -> Result<usize, Failure> {
        let mut info = SignalInfo([0; 16]);
        self.request(sys::PTRACE_GETSIGINFO, (&raw mut info).cast())?;
        Ok(info.address())
    }

    /// Goes on by one instruction, or freely, and waits for the next stop. No signal is handed to the child.
    fn go(&mut self, request: c_long) -> Result<Status, Failure> {
        self.request(request, core::ptr::null_mut())?;
        let status = sys::wait(self.pid);
        if !matches!(status, Status::Stopped(_)) {
            self.over = true;
        }
        Ok(status)
    }

    /// Has the child change the protection of a buffer's pages, and brings it back to where it stood.
    fn protect(&mut self, stretch: Stretch, protection: c_int) -> Result<(), Failure> {
        let saved = self.registers()?;
        let mut registers = saved;
        registers.rip = sys::domain_stepping_syscall as *const () as u64;
        registers.rax = sys::SYS_MPROTECT;
        registers.orig_rax = u64::MAX;
        registers.rdi = stretch.pages as u64;
        registers.rsi = stretch.pages_len as u64;
        registers.rdx = protection as u64;
        self.set_registers(&registers)?;
        match self.go(sys::PTRACE_SINGLESTEP)? {
            Status::Stopped(sys::SIGTRAP) => {}
            status => {
                return Err(Failure::Wrong(format!(
                    "changing a protection ended as {status:?}"
                )));
            }
        }
        let result = self.registers()?.rax;
        if result != 0 {
            return Err(Failure::Wrong(format!(
                "changing a protection gave {}",
                result as i64
            )));
        }
        self.set_registers(&saved)
    }
}

/// Follows one call on the arena's buffers. `call` runs in the child: it must allocate nothing.
pub fn follow(
    arena: &Arena,
    way: Way,
    call: &dyn Fn(Lent, &mut Outs) -> u32,
) -> Result<Trace, Failure> {
    let lent = arena.lent();
    let page = Pages::new(size_of::<Told>(), READ_WRITE);
    let told: *mut Told = page.start().cast();
    // SAFETY: the page is large enough, and this process's own until it forks.
    unsafe { told.write_volatile(Told::nothing()) };
    let pid = unsafe { sys::fork() };
    if pid == 0 {
        unsafe {
            if sys::ptrace(
                sys::PTRACE_TRACEME,
                0,
                core::ptr::null_mut(),
                core::ptr::null_mut(),
            ) == -1
            {
                sys::_exit(REFUSED);
            }
            let guarded = way != Way::Whole;
            if guarded && !arena.stretches.iter().all(|part| part.allow(READ)) {
                sys::_exit(1);
            }
            // A call that never ends is stopped by a signal, which the tracer reports.
            sys::alarm(300);
            sys::raise(sys::SIGSTOP);
            let code = call(lent, &mut (*told).outs);
            (&raw mut (*told).code).write_volatile(code);
            sys::_exit(0);
        }
    }
    if pid < 0 {
        return Err(Failure::NotAllowed(format!(
            "no child process: {}",
            std::io::Error::last_os_error()
        )));
    }
    let mut child = Child { pid, over: false };
    match sys::wait(pid) {
        Status::Stopped(sys::SIGSTOP) => {}
        Status::Exited(REFUSED) => {
            child.over = true;
            return Err(Failure::NotAllowed(
                "a child may not ask to be traced here".into(),
            ));
        }
        status => {
            child.over = !matches!(status, Status::Stopped(_));
            return Err(Failure::NotAllowed(format!(
                "a child that asked to be traced stands at {status:?}"
            )));
        }
    }
    child.request(
        sys::PTRACE_SETOPTIONS,
        sys::PTRACE_O_EXITKILL as *mut c_void,
    )?;
    let mut trace = Trace {
        stores: Vec::new(),
        instructions: 0,
        told: Told::nothing(),
    };
    match way {
        Way::Guarded => while guarded(arena, &mut child, &mut trace)? {},
        Way::Stepped => {
            if to_store(arena, &mut child)?.is_some() {
                for stretch in arena.stretches {
                    child.protect(stretch, READ_WRITE)?;
                }
                stepped(arena, &mut child, &mut trace)?
            }
        }
        Way::Whole => stepped(arena, &mut child, &mut trace)?,
    }
    // SAFETY: the child has ended; outs and number are plain numbers.
    trace.told = unsafe { told.read_volatile() };
    Ok(trace)
}

/// Lets the child run to its next store into a buffer, which it has then not made yet; none when the call has ended.
fn to_store(arena: &Arena, child: &mut Child) -> Result<Option<(u64, Stretch, usize)>, Failure> {
    match child.go(sys::PTRACE_CONT)? {
        Status::Exited(0) => Ok(None),
        Status::Stopped(sys::SIGSEGV) => {
            let address = child.fault_address()?;
            let instruction = child.registers()?.rip;
            match arena.place(address) {
                Some((stretch, byte)) => Ok(Some((instruction, stretch, byte))),
                None => Err(Failure::Wrong(format!(
                    "{} touches {address:#x}, outside the lent buffers",
                    at(instruction)
                ))),
            }
        }
        status => Err(Failure::Wrong(format!("the call ended as {status:?}"))),
    }
}

/// One store on guarded pages; false when the call has ended.
fn guarded(arena: &Arena, child: &mut Child, trace: &mut Trace) -> Result<bool, Failure> {
    let Some((instruction, stretch, byte)) = to_store(arena, child)? else {
        return Ok(false);
    };
    child.protect(stretch, READ_WRITE)?;
    match child.go(sys::PTRACE_SINGLESTEP)? {
        Status::Stopped(sys::SIGTRAP) => {}
        status => {
            return Err(Failure::Wrong(format!(
                "{} ended as {status:?}",
                at(instruction)
            )));
        }
    }
    trace.instructions += 1;
    trace.stores.push(Stored {
        instruction,
        place: Some((stretch.buffer, byte)),
        left: arena.buffers(),
    });
    child.protect(stretch, READ)?;
    Ok(true)
}

/// Every instruction to the end.
fn stepped(arena: &Arena, child: &mut Child, trace: &mut Trace) -> Result<(), Failure> {
    let mut last = arena.buffers();
    loop {
        let instruction = child.registers()?.rip;
        match child.go(sys::PTRACE_SINGLESTEP)? {
            Status::Exited(0) => return Ok(()),
            Status::Stopped(sys::SIGTRAP) => trace.instructions += 1,
            status => {
                return Err(Failure::Wrong(format!(
                    "{} ended as {status:?}",
                    at(instruction)
                )));
            }
        }
        if !arena.equals(&last) {
            arena.copy_into(&mut last);
            trace.stores.push(Stored {
                instruction,
                place: None,
                left: last.clone(),
            });
        }
    }
}

/// An instruction's address with the bytes that stand there. The child is a fork of this process, so its code stands here too.
pub fn at(instruction: u64) -> String {
    let bytes: Vec<String> = (0..12)
        .map(|offset| {
            format!("{:02x}", unsafe {
                ((instruction + offset) as *const u8).read_volatile()
            })
        })
        .collect();
    format!("instruction {instruction:#x} [{}]", bytes.join(" "))
}

/// Whether this machine lets a child be traced and its pages be guarded.
pub fn allowed() -> Result<(), String> {
    let lengths = Sizes { m: 1, e: 1, b: 1 }.lengths();
    let arena = Arena::new(lengths, Side::After);
    let store_one = |lent: Lent, _: &mut Outs| {
        unsafe { lent.table.write_volatile(1) };
        0
    };
    for way in [Way::Guarded, Way::Stepped, Way::Whole] {
        arena.load(&Buffers::filled(lengths, 0, 0));
        match follow(&arena, way, &store_one) {
            Ok(trace) if trace.stores.len() == 1 => {}
            Ok(trace) => {
                return Err(format!(
                    "a traced child showed {} stores instead of 1",
                    trace.stores.len()
                ));
            }
            Err(Failure::NotAllowed(why) | Failure::Wrong(why)) => return Err(why),
        }
    }
    Ok(())
}

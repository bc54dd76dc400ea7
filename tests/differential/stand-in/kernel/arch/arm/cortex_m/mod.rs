//! Stand-in for the processor. A context is a stack pointer and a system call
//! result. A requested switch is noted for the reference program and is never
//! carried out from here. Protection does nothing.

use minirtos_abi::{SysError, TaskEntry};

use super::Arch;
use crate::interface;
use crate::task::{Privilege, TaskExit};

pub struct CortexM;

#[derive(Clone, Copy)]
pub struct Context {
    pub(crate) sp: usize,
    pub(crate) result: i32,
}

impl Context {
    pub fn set_syscall_result(&mut self, result: i32) {
        self.result = result;
    }
}

pub struct Protection;

impl Protection {
    pub fn new() -> Self {
        Protection
    }
}

const ABSENT: &str = "the stand-in processor runs no task";

impl Arch for CortexM {
    const MEMORY_REGION_COUNT: usize = 8;
    const MEMORY_ALIGNMENT: usize = 32;
    const STACK_ALIGNMENT: usize = 8;
    const MAX_IRQS: usize = 64;

    type Context = Context;
    type IrqState = ();
    type ProtectionContext = Protection;

    fn init(_core_clock_hz: u32, _tick_hz: u32) {}

    /// No first frame is laid down: the pointer is the top, the words stay.
    fn init_context(
        stack_top: *mut u8,
        _entry: TaskEntry,
        _arg: *mut (),
        _exit: TaskExit,
        _privilege: Privilege,
    ) -> Context {
        Context {
            sp: stack_top as usize,
            result: 0,
        }
    }

    fn stack_pointer(context: &Context) -> usize {
        context.sp
    }

    fn start_first_task() -> ! {
        panic!("{}", ABSENT)
    }

    fn request_context_switch() {
        interface::note_request();
    }

    fn set_stack_pointer(context: &mut Context, sp: usize) {
        context.sp = sp;
    }

    fn prepare_context_switch(_context: &Context) {}

    fn disable_interrupts() {}

    fn restore_interrupts(_state: ()) {}

    fn interrupts_enabled() -> bool {
        true
    }

    fn wait_for_interrupt() {
        panic!("{}", ABSENT)
    }

    fn enable_irq(_irq: u32) {}

    fn disable_irq(_irq: u32) {}

    fn clear_pending_irq(_irq: u32) {}

    fn init_protection() {}

    fn apply_protection(_context: &Protection) {}

    fn clear_protection() {}

    fn new_protection_context() -> Protection {
        Protection::new()
    }

    fn add_stack_region(_: &mut Protection, _: usize, _: usize) -> Result<(), SysError> {
        Ok(())
    }

    fn add_text_region(_: &mut Protection, _: usize, _: usize) -> Result<(), SysError> {
        Ok(())
    }

    fn add_device_region(_: &mut Protection, _: usize, _: usize) -> Result<(), SysError> {
        Ok(())
    }

    fn add_rw_region(_: &mut Protection, _: usize, _: usize) -> Result<(), SysError> {
        Ok(())
    }

    fn remove_region(_: &mut Protection, _: usize, _: usize) -> Result<(), SysError> {
        Ok(())
    }

    fn is_privileged() -> bool {
        true
    }

    fn syscall<const ID: u8>(_args: &[u32]) -> u32 {
        panic!("{}", ABSENT)
    }

    fn syscall_u64<const ID: u8>(_args: &[u32]) -> u64 {
        panic!("{}", ABSENT)
    }

    fn syscall_noreturn<const ID: u8>(_args: &[u32]) -> ! {
        panic!("{}", ABSENT)
    }

    fn current_thread_sp() -> usize {
        0
    }

    fn exception_number() -> usize {
        0
    }
}

//! Stand-in for sys, and the board's call-backs. None is reached: no task runs.

use minirtos_abi::SysError;

pub fn exit() -> ! {
    panic!("no task runs")
}

pub fn sleep_ms(_ms: u32) {}

#[unsafe(no_mangle)]
fn drivers_init() -> Result<(), SysError> {
    Ok(())
}

#[unsafe(no_mangle)]
fn services_init() -> Result<(), SysError> {
    Ok(())
}

#[unsafe(no_mangle)]
fn user_apps_init() -> Result<(), SysError> {
    Ok(())
}

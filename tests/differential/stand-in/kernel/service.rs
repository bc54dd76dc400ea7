//! Stand-in for service: one that has nothing to set up.

use minirtos_abi::SysError;

use crate::synchronization::{CriticalSection, CriticalSectionLock};

pub(crate) struct Service;

impl Service {
    pub(crate) fn init(&mut self, _cs: &CriticalSection) -> Result<(), SysError> {
        Ok(())
    }
}

static SERVICE: CriticalSectionLock<Service> = CriticalSectionLock::new(Service);

pub(crate) fn kernel_service() -> &'static CriticalSectionLock<Service> {
    &SERVICE
}

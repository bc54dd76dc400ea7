//! Stand-in for ipc/mod.rs: the one name that the published files use.

mod pending;

pub(crate) use pending::PendingIpc;

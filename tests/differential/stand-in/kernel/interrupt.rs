//! Stand-in for interrupt: nothing published uses it.

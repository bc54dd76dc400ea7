//! Stand-in for stdio: nothing published uses it.

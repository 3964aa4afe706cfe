//! Stand-in for dispatch/scratch.rs, which isn't published: the name that mod.rs re-exports.

pub struct PrepareScratch;

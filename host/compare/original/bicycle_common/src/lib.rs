// The original's crate of this name, unchanged.

include!(concat!(env!("ORIGINAL"), "/lib.rs"));

//! Ours, not carried over: `cfg(test)` asks for this module, and nothing is opened here.

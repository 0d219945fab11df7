//! Ours, not carried over: stands for the module of this name, which nothing here uses.

//! Where the binding can be compiled: the engine's library is for x86-64 Linux, and so are the constants of the system
//! in the binding and in the tool.
#[cfg(not(all(target_arch = "x86_64", target_os = "linux")))]
compile_error!("mivrozh is for x86-64 Linux");

// Included by what needs the library: where it cannot be linked, the build stops here with the line that says why (build.rs).
#[cfg(not(tapunerow_linked))]
compile_error!(env!("TAPUNEROW_WHY"));

//! A function of a shared library: the code of an archive at some commit, as the scripts beside src/ make it.
use std::ffi::{c_void, CString};
use std::os::raw::c_char;

/// the function with that name; what type it has is for the caller to know
pub fn function_of(library: &str, name: &str) -> *mut c_void {
    extern "C" {
        fn dlopen(file: *const c_char, flags: i32) -> *mut c_void;
        fn dlsym(library: *mut c_void, name: *const c_char) -> *mut c_void;
    }
    const NOW: i32 = 2;
    let (file, symbol) = (CString::new(library).unwrap(), CString::new(name).unwrap());
    // SAFETY: both strings end in 0.
    unsafe {
        let opened = dlopen(file.as_ptr(), NOW);
        assert!(!opened.is_null(), "no library {library}");
        let function = dlsym(opened, symbol.as_ptr());
        assert!(!function.is_null(), "no `{name}` in {library}");
        function
    }
}

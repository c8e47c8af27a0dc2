//! Another version of the product, opened as a shared library. Its functions
//! have the same names as the linked ones, so they cannot be linked too.

use std::ffi::{c_char, c_int, c_void, CStr, CString};
use std::fs;
use std::mem;
use std::os::unix::ffi::OsStrExt;

use crate::Calls;

/// All that the library needs is found as it is opened, so that no call has to
/// look for it while it is timed.
const RTLD_NOW: c_int = 2;

/// What the library has is for nobody else.
const RTLD_LOCAL: c_int = 0;

// Rust's standard library has nothing for this; the C library, which is linked
// anyway, does.
extern "C" {
    fn dlopen(file: *const c_char, flags: c_int) -> *mut c_void;
    fn dlsym(library: *mut c_void, name: *const c_char) -> *mut c_void;
    fn dlerror() -> *const c_char;
}

impl Calls {
    /// The functions of a shared library, which is never closed, so that they
    /// stay.
    ///
    /// # Safety
    ///
    /// The file is a build of the product whose functions have the signatures
    /// of today, but for address, claim, the two that mend and the two that format, which
    /// are not looked up. No check could find another, so a version with one must not be
    /// opened.
    pub unsafe fn open(file: &str) -> Result<Calls, String> {
        let library = open(file)?;
        // SAFETY: the signatures are those of today, as the fields' types are.
        unsafe {
            Ok(Calls {
                check: find(library, c"shoalswift_check")?,
                list: find(library, c"shoalswift_list")?,
                free: find(library, c"shoalswift_free")?,
                address: no_address,
                sweep_object: find(library, c"shoalswift_sweep_object")?,
                sweep_free: find(library, c"shoalswift_sweep_free")?,
                release: find(library, c"shoalswift_release")?,
                place: find(library, c"shoalswift_place")?,
                claim: no_claim,
                mend: no_mend,
                mend_positions: no_mend_positions,
                format: no_format,
                format_length: no_format_length,
            })
        }
    }
}

/// In place of the library's own address, which nobody calls, as `bench` does not
/// time it: in a version from before R-11 of document 02 it has no run to write, and
/// another signature.
unsafe extern "C" fn no_address(
    _map: *const u8,
    _map_len: usize,
    _n: u32,
    _position: u64,
    _address: *mut u64,
    _run: *mut u64,
    _zone: *mut u32,
) -> u32 {
    unreachable!("the address of an opened library is not called")
}

/// In place of the library's own claim, which nobody calls, as `bench` does not time
/// it: in a version from before R-6 of document 02 it has no parent zone, in one from
/// before R-8 no list, and in both another signature.
unsafe extern "C" fn no_claim(
    _map: *mut u8,
    _map_len: usize,
    _size: u64,
    _parent: u32,
    _list: *mut u32,
    _list_len: usize,
    _id: *mut u32,
    _pairs: *mut u64,
    _zone: *mut u32,
) -> u32 {
    unreachable!("the claim of an opened library is not called")
}

/// In place of the library's own mender, which nobody calls, as `bench` does not time it:
/// a version from before R-9 of document 02 has none.
unsafe extern "C" fn no_mend(_map: *mut u8, _map_len: usize, _zone: *mut u32) -> u32 {
    unreachable!("the mender of an opened library is not called")
}

/// The same for the positions that it would change.
unsafe extern "C" fn no_mend_positions(
    _map: *const u8,
    _map_len: usize,
    _list: *mut u32,
    _list_len: usize,
    _count: *mut u64,
    _zone: *mut u32,
) -> u32 {
    unreachable!("the mender of an opened library is not called")
}

/// In place of the library's own format, which nobody calls: a version from before R-13 of
/// document 02 has none.
unsafe extern "C" fn no_format(
    _log2secsize: u32,
    _capacity: u64,
    _idlen: u32,
    _map: *mut u8,
    _map_len: usize,
    _zone: *mut u32,
) -> u32 {
    unreachable!("the format of an opened library is not called")
}

/// The same for the length of its map.
unsafe extern "C" fn no_format_length(
    _log2secsize: u32,
    _capacity: u64,
    _idlen: u32,
    _length: *mut u64,
    _zone: *mut u32,
) -> u32 {
    unreachable!("the format of an opened library is not called")
}

fn open(file: &str) -> Result<*mut c_void, String> {
    // A name without a folder would be looked for among the system's libraries.
    let path = fs::canonicalize(file).map_err(|error| format!("{file}: {error}"))?;
    let path = CString::new(path.as_os_str().as_bytes()).expect("a path has no byte 0");
    // SAFETY: the path ends with 0. What the library does on being opened is
    // trusted as the linked product is.
    let library = unsafe { dlopen(path.as_ptr(), RTLD_NOW | RTLD_LOCAL) };
    if library.is_null() {
        return Err(reason());
    }
    Ok(library)
}

/// The function with this name.
///
/// # Safety
///
/// The library is open, and F is the type of a pointer to that function.
unsafe fn find<F: Copy>(library: *mut c_void, name: &CStr) -> Result<F, String> {
    const { assert!(mem::size_of::<F>() == mem::size_of::<*mut c_void>()) };
    // SAFETY: the library is open and the name ends with 0.
    let address = unsafe { dlsym(library, name.as_ptr()) };
    if address.is_null() {
        return Err(reason());
    }
    // SAFETY: F is a pointer of the same size, and not null.
    Ok(unsafe { mem::transmute_copy(&address) })
}

/// Why the last of these calls failed.
fn reason() -> String {
    // SAFETY: the text, if there is one, ends with 0 and stays until the next
    // of these calls on this thread.
    unsafe {
        match dlerror() {
            text if text.is_null() => "the library has a function at no address".to_string(),
            text => CStr::from_ptr(text).to_string_lossy().into_owned(),
        }
    }
}

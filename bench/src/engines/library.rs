//! Shared libraries opened at run time, so that the build needs none of them and one that is missing is skipped.

use std::ffi::{c_char, c_int, c_void, CStr, CString};

extern "C" {
    fn dlopen(file: *const c_char, flags: c_int) -> *mut c_void;
    fn dlerror() -> *const c_char;
    fn dlsym(library: *mut c_void, name: *const c_char) -> *mut c_void;
}

/// Names of all functions are looked up when the library is opened.
const RTLD_NOW: c_int = 2;

pub struct Library {
    handle: *mut c_void,
    file: String,
}

impl Library {
    /// Opens a library by its file name or its path; words where it is not there. It stays open.
    pub fn open(file: &str) -> Result<Library, String> {
        let name = CString::new(file).expect("no zero in a file name");
        // SAFETY: the name ends with a zero, and so do the words about an error.
        unsafe {
            let handle = dlopen(name.as_ptr(), RTLD_NOW);
            if handle.is_null() {
                return Err(CStr::from_ptr(dlerror()).to_string_lossy().into_owned());
            }
            Ok(Library { handle, file: file.to_string() })
        }
    }

    /// The address of a function; words where there is none of this name, so the library is not the one that is meant.
    pub fn address(&self, name: &str) -> Result<*mut c_void, String> {
        let symbol = CString::new(name).expect("no zero in a name");
        // SAFETY: the library is open and the name ends with a zero.
        let address = unsafe { dlsym(self.handle, symbol.as_ptr()) };
        match address.is_null() {
            true => Err(format!("{} has no function {name}", self.file)),
            false => Ok(address),
        }
    }
}

/// Declares a struct of functions of a library, and `of`, which fills it; where the library's file name is given also `open`, which
/// opens the library before, and gives none where it is missing. Nothing checks the types against the library's header.
macro_rules! functions {
    ($(#[$words:meta])* $table:ident $(from $file:literal)? {
        $(fn $name:ident($($argument:ty),*) $(-> $result:ty)?;)*
    }) => {
        $(#[$words])*
        #[derive(Clone, Copy)]
        struct $table {
            $($name: unsafe extern "C" fn($($argument),*) $(-> $result)?,)*
        }

        impl $table {
            fn of(library: &crate::engines::library::Library) -> Result<$table, String> {
                Ok($table {
                    // SAFETY: the library's header declares this function with these types.
                    $($name: unsafe { std::mem::transmute::<
                        *mut std::ffi::c_void,
                        unsafe extern "C" fn($($argument),*) $(-> $result)?,
                    >(library.address(stringify!($name))?) },)*
                })
            }

            $(fn open() -> Option<$table> {
                let library = crate::engines::library::Library::open($file).ok()?;
                Some($table::of(&library).unwrap_or_else(|words| panic!("{words}")))
            })?
        }
    };
}
pub(crate) use functions;

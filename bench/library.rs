// The proved library's C functions, out of a shared object, so that two builds of it can be measured beside each other.
use std::ffi::{c_char, c_int, c_void, CStr, CString};

extern "C" {
    fn dlopen(file: *const c_char, mode: c_int) -> *mut c_void;
    fn dlsym(object: *mut c_void, name: *const c_char) -> *mut c_void;
}

// All symbols are bound when the object is opened.
const BIND_NOW: c_int = 2;

pub const PATH: usize = 65;

macro_rules! functions {
    ($($name:ident($($argument:ty),*) $(-> $given:ty)?;)*) => {
        pub struct Library {
            $($name: unsafe extern "C" fn($($argument),*) $(-> $given)?,)*
        }

        impl Library {
            pub fn open(file: &str) -> Library {
                let object = unsafe { dlopen(CString::new(file).expect("a path").as_ptr(), BIND_NOW) };
                assert!(!object.is_null(), "no library {file}");
                Library { $($name: unsafe { std::mem::transmute(symbol(object, concat!("rfc733_", stringify!($name), "\0"))) },)* }
            }
        }
    };
}

fn symbol(object: *mut c_void, name: &str) -> *mut c_void {
    let name = CStr::from_bytes_with_nul(name.as_bytes()).expect("a name");
    let found = unsafe { dlsym(object, name.as_ptr()) };
    assert!(!found.is_null(), "no function {name:?}");
    found
}

functions! {
    split(*const u8, usize, *mut u8, usize, *mut u64, usize);
    // An older library has two arguments; the third, in a register (System V), does it no harm.
    known_name(*const u8, usize, *mut u64) -> u32;
    addresses(*const u8, usize, usize, usize, usize, *mut u8, usize, *mut u64, usize);
    addresses_by_table(*const u8, usize, usize, usize, *mut u8, usize, *mut u64, usize);
    touch(*const u8, usize, usize, usize, usize, *mut u64, usize, *mut u64, usize);
    date(*const u8, usize, usize, usize, *mut u64, usize, *mut i64);
    plain(*const u8, usize, usize, usize, *mut u8, usize, *mut u64, usize);
    expand(*const u8, usize, usize, usize, *const u8, usize, *mut u8, usize, *mut u64, usize);
}

// Each gives what the function told; a body without positions is the whole message.
impl Library {
    pub fn split(&self, m: &[u8], table: &mut [u8]) -> [u64; 3] {
        let mut told = [0; 3];
        unsafe { (self.split)(m.as_ptr(), m.len(), table.as_mut_ptr(), table.len(), told.as_mut_ptr(), 3) };
        told
    }

    // The number of the name.
    pub fn known_name(&self, name: &[u8]) -> u32 {
        let mut compared = 0;
        unsafe { (self.known_name)(name.as_ptr(), name.len(), &mut compared) }
    }

    pub fn addresses(&self, m: &[u8], start: usize, end: usize, edition: usize, table: &mut [u8]) -> [u64; 3] {
        let (room, mut told) = (table.len(), [0; 3]);
        unsafe { (self.addresses)(m.as_ptr(), m.len(), start, end, edition, table.as_mut_ptr(), room, told.as_mut_ptr(), 3) };
        told
    }

    pub fn addresses_by_table(&self, m: &[u8], start: usize, end: usize, table: &mut [u8]) -> [u64; 3] {
        let (room, mut told) = (table.len(), [0; 3]);
        unsafe { (self.addresses_by_table)(m.as_ptr(), m.len(), start, end, table.as_mut_ptr(), room, told.as_mut_ptr(), 3) };
        told
    }

    pub fn touch(&self, m: &[u8], place: usize) -> [u64; 5] {
        let (n, mut path, mut told) = (m.len(), [0; PATH], [0; 5]);
        unsafe { (self.touch)(m.as_ptr(), n, 0, n, place, path.as_mut_ptr(), PATH, told.as_mut_ptr(), 5) };
        told
    }

    // The seconds.
    pub fn date(&self, m: &[u8]) -> i64 {
        let (n, mut told, mut seconds) = (m.len(), [0; 3], 0);
        unsafe { (self.date)(m.as_ptr(), n, 0, n, told.as_mut_ptr(), 3, &mut seconds) };
        seconds
    }

    pub fn plain(&self, m: &[u8], text: &mut [u8]) -> [u64; 3] {
        let (n, mut told) = (m.len(), [0; 3]);
        unsafe { (self.plain)(m.as_ptr(), n, 0, n, text.as_mut_ptr(), text.len(), told.as_mut_ptr(), 3) };
        told
    }

    pub fn expand(&self, m: &[u8], store: &[u8], text: &mut [u8]) -> [u64; 4] {
        let (n, size, room, mut told) = (m.len(), store.len(), text.len(), [0; 4]);
        let (m, store, text) = (m.as_ptr(), store.as_ptr(), text.as_mut_ptr());
        unsafe { (self.expand)(m, n, 0, n, store, size, text, room, told.as_mut_ptr(), 4) };
        told
    }
}

//! glibc's `iconv`, which texts are timed beside and held against.
use std::ffi::{c_char, c_int, c_void, CStr};
use std::io;
use std::mem::{size_of, size_of_val};
use std::ptr::null_mut;

extern "C" {
    fn iconv_open(to: *const c_char, from: *const c_char) -> *mut c_void;
    fn iconv(open: *mut c_void, from: *mut *mut c_char, from_left: *mut usize, to: *mut *mut c_char, to_left: *mut usize) -> usize;
    fn iconv_close(open: *mut c_void) -> c_int;
}

/// What a text is made of: numbers of which every pattern of bits is one, with no bytes between them.
pub trait Unit: Copy {}

impl Unit for u8 {}
impl Unit for u16 {}

/// A way from one coding to another, which is open until it is dropped.
pub struct Iconv(*mut c_void);

impl Iconv {
    /// Opens the way between codings of these names.
    pub fn open(from: &CStr, to: &CStr) -> io::Result<Iconv> {
        // SAFETY: both names end with a zero, and are lent for the call, which only reads them.
        let open = unsafe { iconv_open(to.as_ptr(), from.as_ptr()) };
        // "(iconv_t) -1" is no way.
        match open as isize {
            -1 => Err(io::Error::last_os_error()),
            _ => Ok(Iconv(open)),
        }
    }

    /// Turns a whole text, and answers how many units it wrote.
    pub fn turn<T: Unit, U: Unit>(&mut self, from: &[T], to: &mut [U]) -> io::Result<usize> {
        let (mut from_at, mut from_left) = (from.as_ptr().cast_mut().cast(), size_of_val(from));
        let (mut to_at, mut to_left) = (to.as_mut_ptr().cast(), size_of_val(to));
        // SAFETY: what `open` answered is open until it is dropped, and is borrowed mutably. The first call is lent nothing, and has the
        // second start anew after a text that was not turned whole. The second is lent two slices by their lengths in bytes: it only reads the
        // one, though its declaration is without const; the other is borrowed mutably, so that the two do not overlap, and takes any bytes.
        let others = unsafe {
            iconv(self.0, null_mut(), null_mut(), null_mut(), null_mut());
            iconv(self.0, &mut from_at, &mut from_left, &mut to_at, &mut to_left)
        };
        match others {
            0 => Ok((size_of_val(to) - to_left) / size_of::<U>()),
            usize::MAX => Err(io::Error::last_os_error()),
            // How many characters were turned into others than their own.
            _ => Err(io::Error::other(format!("{others} characters were replaced"))),
        }
    }
}

impl Drop for Iconv {
    fn drop(&mut self) {
        // SAFETY: what `open` answered is open until here, and is not used after.
        unsafe { iconv_close(self.0) };
    }
}

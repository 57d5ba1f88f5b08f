//! A value that the compiler cannot see through, so that a measured call is made every time.

pub fn opaque<T>(value: T) -> T {
    // SAFETY: the value is read once and its first owner is forgotten.
    unsafe {
        let read = std::ptr::read_volatile(&value);
        std::mem::forget(value);
        read
    }
}

//! Error numbers.

use std::error::Error;
use std::fmt;
use std::io;

/// An error number of Linux, as a call answers it.
///
/// ```
/// use nippersage::Errno;
///
/// assert_eq!(Errno::EAGAIN.number(), 11);
/// assert_eq!(Errno::EAGAIN.to_string(), "EAGAIN: resource temporarily unavailable");
/// ```
#[derive(Clone, Copy, PartialEq, Eq, Hash, PartialOrd, Ord)]
pub struct Errno(i32);

/// Makes the constants and the table of names and texts.
macro_rules! numbers {
    ($($name:ident = $number:literal, $text:literal;)*) => {
        impl Errno {
            $(#[doc = $text] pub const $name: Errno = Errno($number);)*

            /// Its name in capitals and what it means, if it is one of the constants.
            fn told(self) -> Option<(&'static str, &'static str)> {
                match self {
                    $(Errno::$name => Some((stringify!($name), $text)),)*
                    _ => None,
                }
            }
        }
    };
}

numbers! {
    EPERM = 1, "operation not permitted";
    ENOENT = 2, "no such file or directory";
    ESRCH = 3, "no such process";
    EBADF = 9, "bad file descriptor";
    EAGAIN = 11, "resource temporarily unavailable";
    ENOMEM = 12, "cannot allocate memory";
    EFAULT = 14, "bad address";
    EBUSY = 16, "device or resource busy";
    EEXIST = 17, "file exists";
    EINVAL = 22, "invalid argument";
    ENFILE = 23, "too many open files in system";
    EMFILE = 24, "too many open files";
    ENOSPC = 28, "no space left on device";
    EPIPE = 32, "broken pipe";
    EDEADLK = 35, "resource deadlock avoided";
    ELOOP = 40, "too many levels of links";
    EPROTO = 71, "protocol error";
    EBADMSG = 74, "bad message";
    ENOTSOCK = 88, "socket operation on non-socket";
    EMSGSIZE = 90, "message too long";
    EOPNOTSUPP = 95, "operation not supported";
    EAFNOSUPPORT = 97, "address family not supported";
    EADDRINUSE = 98, "address already in use";
    EADDRNOTAVAIL = 99, "cannot assign requested address";
    ECONNABORTED = 103, "software caused connection abort";
    ECONNRESET = 104, "connection reset by peer";
    EISCONN = 106, "endpoint is already connected";
    ENOTCONN = 107, "endpoint is not connected";
    ECONNREFUSED = 111, "connection refused";
    EALREADY = 114, "operation already in progress";
    EINPROGRESS = 115, "operation now in progress";
    ECANCELED = 125, "operation canceled";
}

impl Errno {
    /// The error of a number of Linux.
    pub const fn new(number: i32) -> Errno {
        Errno(number)
    }

    /// Its number, as 11.
    pub const fn number(self) -> i32 {
        self.0
    }

    /// Its name, as `"EAGAIN"`; `"E?"` if it is not one of the constants.
    pub fn name(self) -> &'static str {
        self.told().map_or("E?", |(name, _)| name)
    }
}

impl fmt::Display for Errno {
    fn fmt(&self, f: &mut fmt::Formatter<'_>) -> fmt::Result {
        match self.told() {
            Some((name, text)) => write!(f, "{name}: {text}"),
            None => write!(f, "error number {}", self.0),
        }
    }
}

impl fmt::Debug for Errno {
    fn fmt(&self, f: &mut fmt::Formatter<'_>) -> fmt::Result {
        write!(f, "{}({})", self.name(), self.0)
    }
}

impl Error for Errno {}

impl From<Errno> for io::Error {
    fn from(errno: Errno) -> io::Error {
        io::Error::from_raw_os_error(errno.0)
    }
}

/// The result of a function of the library: 0 or more, or minus an error number. It doesn't come
/// back to a task whose order is over (`orders`).
pub(crate) fn checked(result: impl Into<i64>) -> Result<i64, Errno> {
    let result = result.into();
    if result == -i64::from(Errno::ECANCELED.0) {
        crate::orders::leave();
    }
    // No error number is above 4,095.
    if result < 0 {
        Err(Errno(-result as i32))
    } else {
        Ok(result)
    }
}

//! What a path can be.

use std::borrow::Cow;
use std::ffi::{OsStr, OsString};
use std::os::unix::ffi::OsStrExt;
use std::path::{Component, Path, PathBuf};
use std::rc::Rc;
use std::sync::Arc;

/// What a path can be: text, bytes, or a path of the standard library, owned or borrowed.
///
/// The bytes are taken as they are, so `/a/` and `/a/../b` are refused even as a `Path`.
///
/// ```
/// use std::path::Path;
///
/// let mut tree = atomfs::Tree::new()?;
/// tree.mkdir(Path::new("/a"))?;
/// tree.mknod(Path::new("/a").join("f"))?;
/// tree.mknod(b"/a/\xff")?;
/// assert_eq!(tree.readdir("/a")?, [&b"f"[..], b"\xff"]);
/// # Ok::<(), atomfs::Error>(())
/// ```
pub trait AsPath {
    /// The bytes of the path.
    fn path_bytes(&self) -> &[u8];
}

macro_rules! of_bytes {
    ($($type:ty: $self:ident $bytes:expr;)*) => {
        $(impl AsPath for $type {
            fn path_bytes(&$self) -> &[u8] {
                $bytes
            }
        })*
    };
}

of_bytes! {
    [u8]: self self;
    Vec<u8>: self self;
    str: self self.as_bytes();
    String: self self.as_bytes();
    OsStr: self self.as_bytes();
    OsString: self self.as_bytes();
    Path: self self.as_os_str().as_bytes();
    PathBuf: self self.as_os_str().as_bytes();
    Component<'_>: self self.as_os_str().as_bytes();
}

impl<const N: usize> AsPath for [u8; N] {
    fn path_bytes(&self) -> &[u8] {
        self
    }
}

macro_rules! of_owners {
    ($($type:ty)*) => {
        $(impl<T: AsPath + ?Sized> AsPath for $type {
            fn path_bytes(&self) -> &[u8] {
                (**self).path_bytes()
            }
        })*
    };
}

of_owners! { &T &mut T Box<T> Rc<T> Arc<T> }

impl<T: AsPath + ToOwned + ?Sized> AsPath for Cow<'_, T> {
    fn path_bytes(&self) -> &[u8] {
        (**self).path_bytes()
    }
}

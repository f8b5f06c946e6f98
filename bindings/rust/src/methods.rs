//! The calls as methods, of what runs them one by one.

/// Gives a type that has `Calls` each call as a method. Its `stands_at` gets the line that makes the call.
macro_rules! methods {
    ($type:ty, $others:literal) => {
        impl $type {
            fn done(&mut self, call: &$crate::call::Call) -> Result<(), $crate::error::Error> {
                $crate::whole::Calls::call(self, call).map(|_| ())
            }

            /// Makes an empty directory.
            #[track_caller]
            pub fn mkdir(&mut self, path: impl $crate::path::AsPath) -> Result<(), $crate::error::Error> {
                self.stands_at(std::panic::Location::caller());
                self.done(&$crate::call::Call::mkdir(&path))
            }

            /// Makes an empty file.
            #[track_caller]
            pub fn mknod(&mut self, path: impl $crate::path::AsPath) -> Result<(), $crate::error::Error> {
                self.stands_at(std::panic::Location::caller());
                self.done(&$crate::call::Call::mknod(&path))
            }

            /// Removes the entry of a file.
            #[track_caller]
            pub fn unlink(&mut self, path: impl $crate::path::AsPath) -> Result<(), $crate::error::Error> {
                self.stands_at(std::panic::Location::caller());
                self.done(&$crate::call::Call::unlink(&path))
            }

            /// Removes the entry of an empty directory.
            #[track_caller]
            pub fn rmdir(&mut self, path: impl $crate::path::AsPath) -> Result<(), $crate::error::Error> {
                self.stands_at(std::panic::Location::caller());
                self.done(&$crate::call::Call::rmdir(&path))
            }

            /// Moves what is at `path`, with all below it, to `other`. A file or an empty directory there is replaced.
            #[track_caller]
            pub fn rename(
                &mut self,
                path: impl $crate::path::AsPath,
                other: impl $crate::path::AsPath,
            ) -> Result<(), $crate::error::Error> {
                self.stands_at(std::panic::Location::caller());
                self.done(&$crate::call::Call::rename(&path, &other))
            }

            /// Exchanges what is at two paths, each with all below it.
            #[track_caller]
            pub fn exchange(
                &mut self,
                path: impl $crate::path::AsPath,
                other: impl $crate::path::AsPath,
            ) -> Result<(), $crate::error::Error> {
                self.stands_at(std::panic::Location::caller());
                self.done(&$crate::call::Call::exchange(&path, &other))
            }

            /// What is at a path.
            #[track_caller]
            pub fn stat(
                &mut self,
                path: impl $crate::path::AsPath,
            ) -> Result<$crate::call::Stat, $crate::error::Error> {
                self.stands_at(std::panic::Location::caller());
                $crate::whole::stat(self, $crate::path::AsPath::path_bytes(&path))
            }

            /// The names of a directory, in byte order.
            #[track_caller]
            pub fn readdir(&mut self, path: impl $crate::path::AsPath) -> Result<Vec<Vec<u8>>, $crate::error::Error> {
                self.stands_at(std::panic::Location::caller());
                $crate::whole::readdir(self, $crate::path::AsPath::path_bytes(&path))
            }

            /// As [`Tree::list`](crate::Tree::list).
            #[track_caller]
            pub fn list(
                &mut self,
                path: impl $crate::path::AsPath,
                after: impl $crate::path::AsPath,
                count: u32,
            ) -> Result<Vec<Vec<u8>>, $crate::error::Error> {
                self.stands_at(std::panic::Location::caller());
                $crate::whole::list(
                    self,
                    $crate::path::AsPath::path_bytes(&path),
                    $crate::path::AsPath::path_bytes(&after),
                    count,
                )
            }

            #[doc = concat!("As [`Tree::read_dir`](crate::Tree::read_dir)", $others)]
            #[track_caller]
            pub fn read_dir(&mut self, path: impl $crate::path::AsPath) -> Result<Vec<Vec<u8>>, $crate::error::Error> {
                self.stands_at(std::panic::Location::caller());
                $crate::whole::read_dir(self, $crate::path::AsPath::path_bytes(&path))
            }

            /// At most `count` bytes of a file from an offset on.
            #[track_caller]
            pub fn read(
                &mut self,
                path: impl $crate::path::AsPath,
                offset: u64,
                count: u64,
            ) -> Result<Vec<u8>, $crate::error::Error> {
                self.stands_at(std::panic::Location::caller());
                $crate::whole::read(self, $crate::path::AsPath::path_bytes(&path), offset, count)
            }

            /// Writes bytes into a file at an offset, all of them or none, and returns how many.
            #[track_caller]
            pub fn write(
                &mut self,
                path: impl $crate::path::AsPath,
                offset: u64,
                bytes: impl AsRef<[u8]>,
            ) -> Result<u64, $crate::error::Error> {
                self.stands_at(std::panic::Location::caller());
                $crate::whole::write(self, $crate::path::AsPath::path_bytes(&path), offset, bytes.as_ref())
            }

            /// Cuts a file to a size, or adds zeros up to it.
            #[track_caller]
            pub fn truncate(&mut self, path: impl $crate::path::AsPath, size: u64) -> Result<(), $crate::error::Error> {
                self.stands_at(std::panic::Location::caller());
                self.done(&$crate::call::Call::truncate(&path, size))
            }

            #[doc = concat!("As [`Tree::create_dir_all`](crate::Tree::create_dir_all)", $others)]
            #[track_caller]
            pub fn create_dir_all(&mut self, path: impl $crate::path::AsPath) -> Result<(), $crate::error::Error> {
                self.stands_at(std::panic::Location::caller());
                $crate::whole::create_dir_all(self, $crate::path::AsPath::path_bytes(&path))
            }

            #[doc = concat!("As [`Tree::walk`](crate::Tree::walk)", $others)]
            #[track_caller]
            pub fn walk(
                &mut self,
                path: impl $crate::path::AsPath,
            ) -> Result<Vec<$crate::whole::Entry>, $crate::error::Error> {
                self.stands_at(std::panic::Location::caller());
                $crate::whole::walk(self, $crate::path::AsPath::path_bytes(&path))
            }

            #[doc = concat!("As [`Tree::read_to_end`](crate::Tree::read_to_end)", $others)]
            #[track_caller]
            pub fn read_to_end(&mut self, path: impl $crate::path::AsPath) -> Result<Vec<u8>, $crate::error::Error> {
                self.stands_at(std::panic::Location::caller());
                $crate::whole::read_to_end(self, $crate::path::AsPath::path_bytes(&path))
            }

            #[doc = concat!("As [`Tree::write_file`](crate::Tree::write_file)", $others)]
            #[track_caller]
            pub fn write_file(
                &mut self,
                path: impl $crate::path::AsPath,
                bytes: impl AsRef<[u8]>,
            ) -> Result<(), $crate::error::Error> {
                self.stands_at(std::panic::Location::caller());
                $crate::whole::write_file(self, $crate::path::AsPath::path_bytes(&path), bytes.as_ref())
            }

            #[doc = concat!("As [`Tree::remove_dir_all`](crate::Tree::remove_dir_all)", $others)]
            #[track_caller]
            pub fn remove_dir_all(&mut self, path: impl $crate::path::AsPath) -> Result<(), $crate::error::Error> {
                self.stands_at(std::panic::Location::caller());
                $crate::whole::remove_dir_all(self, $crate::path::AsPath::path_bytes(&path))
            }
        }
    };
}

pub(crate) use methods;

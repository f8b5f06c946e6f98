//! The bounds of names, files, directories and texts.

/// The most names that a call returns.
pub(crate) const LISTED: usize = 256;

/// The number by which a tree keeps all calls.
pub(crate) const KEEP_ALL: u32 = u32::MAX;

/// How many calls a tree keeps in its journal.
#[derive(Clone, Copy, Debug, Default, PartialEq, Eq, Hash)]
pub enum Journal {
    /// All, until a checkpoint. Each takes some 500 bytes, and what it wrote or read.
    #[default]
    All,
    /// If there are more than so many and none is pending, all are forgotten before the next one begins.
    Last(u32),
}

/// How large a tree may be.
#[derive(Clone, Copy, Debug, Default, PartialEq, Eq, Hash)]
pub enum Limits {
    /// Names of at most 32 bytes, paths of 64 names, directories of 256 entries, files of 65,536 bytes.
    V1 = 1,
    /// Names of at most 64 bytes, paths of 64 names, directories of 256 entries, files of 1,048,576 bytes.
    V2 = 2,
    /// Names of at most 255 bytes, paths of 2,048 names, directories of 1,048,576 entries, files of 2,147,483,648
    /// bytes.
    #[default]
    V3 = 3,
}

impl Limits {
    /// The most names of a path.
    pub const fn path_names(self) -> usize {
        match self {
            Limits::V1 => 64,
            Limits::V2 => 64,
            Limits::V3 => 2_048,
        }
    }

    /// The most bytes of a name.
    pub const fn name_bytes(self) -> usize {
        match self {
            Limits::V1 => 32,
            Limits::V2 => 64,
            Limits::V3 => 255,
        }
    }

    /// The most entries of a directory.
    pub const fn entries(self) -> usize {
        match self {
            Limits::V1 => 256,
            Limits::V2 => 256,
            Limits::V3 => 1_048_576,
        }
    }

    /// The most bytes of a file.
    pub const fn file_bytes(self) -> usize {
        match self {
            Limits::V1 => 65_536,
            Limits::V2 => 1_048_576,
            Limits::V3 => 2_147_483_648,
        }
    }

    /// The most bytes that one call reads.
    pub const fn read_bytes(self) -> usize {
        match self {
            Limits::V1 => 65_536,
            Limits::V2 => 1_048_576,
            Limits::V3 => 1_048_576,
        }
    }

    /// The most nodes of a tree, its root included.
    pub const fn nodes(self) -> usize {
        match self {
            Limits::V1 => 1_048_576,
            Limits::V2 => 1_048_576,
            Limits::V3 => 16_777_216,
        }
    }

    /// Whether a tree has the call `list`.
    pub const fn has_list(self) -> bool {
        matches!(self, Limits::V3)
    }
}

//! How much is read of what others wrote. Nothing that is handed in may take the batch's memory or its time.

/// Bytes of a line of a mesh or of a triangulator's answer.
pub const LINE: usize = 65_536;

/// Bytes of a mesh. The largest that the library admits, with normals and colours, has a tenth of it.
pub const MESH: u64 = 256 << 20;

/// Bytes of a list of meshes, or of a summary.
pub const LIST: u64 = 64 << 20;

/// Bytes of a triangulator's answer: 1,048,576 triangles of 60 bytes.
pub const ANSWER: usize = 60 << 20;

/// Bytes of a triangulator's complaint that are kept.
pub const COMPLAINT: usize = 2_000;

/// Elements of a mesh that are kept: one more than the library admits, so that it sees that there are too many.
pub const ELEMENTS: usize = 65_537;

/// Triangles of an answer that are kept, for the same reason.
pub const TRIANGLES: usize = 1_048_577;

/// Seconds that a triangulator may take for a mesh, unless told otherwise.
pub const SECONDS: u64 = 60;

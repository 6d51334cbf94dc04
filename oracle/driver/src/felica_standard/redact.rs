//! A stub: in debug texts, how many bytes a secret has in its place.

#[derive(Debug)]
pub(crate) struct Redacted(pub(crate) usize);

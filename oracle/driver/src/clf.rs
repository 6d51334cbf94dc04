//! A stub: the one name that error.rs takes from the original's module `clf`.

pub mod errors {
    #[derive(Debug)]
    pub enum UnsupportedTargetError {}
}

//! A stub: the one name that error.rs takes from the original's module `driver`, that of the readers.

pub mod errors {
    #[derive(Debug)]
    pub enum DriverError {}
}

//! A stub: the names that command/mod.rs takes from its module `parse`. Nobody calls them here.

pub(crate) fn is_register_command(_code: u8) -> bool {
    unreachable!("a stub")
}

pub(crate) fn is_secure_command_code(_code: u8) -> bool {
    unreachable!("a stub")
}

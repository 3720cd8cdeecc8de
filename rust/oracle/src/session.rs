//! Stands in for the session header, which the port leaves out: a session is
//! its action region and nothing else.

/// The header's length.
pub const SESSION_HEADER_SIZE: usize = 0;

/// Whether the session has actions: its region is not empty.
pub fn has_actions(session_data: &[u8]) -> bool {
    !session_data.is_empty()
}

//! What a file looks like by its first bytes, for messages where another kind of file is due.
use crate::files::LONGEST_SHEET;
use crate::sections::walk;
use crate::sheet::row_area;

/// A PSO file: the names that every one has, or four capital letters with a length that fits. No sheet starts so, since
/// that would be a row count far above the most.
pub fn is_pso(bytes: &[u8]) -> bool {
    let Some(name) = bytes.get(..4) else { return false };
    if [b"PSIN", b"PMAP", b"PSCH"].iter().any(|known| name == *known) {
        return true;
    }
    // Of a sheet that is too long only the front was read.
    let sound = bytes.len() > LONGEST_SHEET || matches!(walk(bytes).next(), Some(Ok(_)));
    name.iter().all(u8::is_ascii_uppercase) && sound
}

/// A sheet: its row count and its length fit one another.
pub fn is_sheet(bytes: &[u8]) -> bool {
    row_area(bytes).is_ok()
}

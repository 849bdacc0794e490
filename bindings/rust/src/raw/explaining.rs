//! Why a file is refused (`stm_explain`).

use super::{code, error_of, text};
use crate::error::{Error, FileFault};

#[repr(C)]
struct Explained {
    code: i32,
    line: usize,
    column: usize,
    place: usize,
}

extern "C" {
    fn stm_explain(
        file: *const u8,
        file_length: usize,
        out: *mut Explained,
        room: *mut u8,
        room_length: usize,
        wanted: *mut usize,
    ) -> i32;
}

/// The fault of a file that has this code.
fn fault_of(code: i32) -> Option<FileFault> {
    match code {
        code::FILE_TOO_LONG => Some(FileFault::TooLong),
        code::FILE_BAD_BYTE => Some(FileFault::BadByte),
        code::FILE_SHAPE => Some(FileFault::Shape),
        code::FILE_NAME => Some(FileFault::Name),
        code::FILE_LIMIT => Some(FileFault::Limit),
        code::FILE_BROKEN => Some(FileFault::Broken),
        _ => None,
    }
}

/// Whether the file is read; or where and why it is refused.
pub fn explain(file: &[u8]) -> Result<(), Error> {
    let mut told = Explained { code: code::DONE, line: 0, column: 0, place: 0 };
    let text = text(|room, wanted| {
        // SAFETY: a slice that is borrowed for the call, as room and length are; what is told is only written.
        unsafe { stm_explain(file.as_ptr(), file.len(), &mut told, room.as_mut_ptr(), room.len(), wanted) }
    })?;
    let Explained { code, line, column, .. } = told;
    fault_of(code).map_or(Ok(()), |fault| Err(Error::Refused { fault, line, column, text }))
}

/// Why a call that reads the file answers this code: where it is the file's, with its place.
pub(super) fn refused(file: &[u8], code: i32) -> Error {
    match fault_of(code) {
        Some(_) => explain(file).expect_err("what a call refuses is refused"),
        None => error_of(code),
    }
}

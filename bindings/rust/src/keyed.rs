//! The call of `list` where the archive of a clone is linked in: that has the proved call alone, which takes the key under which names
//! are counted.
use crate::raw::Answer;
use std::collections::hash_map::RandomState;
use std::hash::{BuildHasher, Hasher};

extern "C" {
    fn serialcheck_list_keyed(
        key: u64,
        bytes: *const u8,
        len: usize,
        filter: *const u8,
        filter_len: usize,
        modules: *const u8,
        modules_len: usize,
        most: usize,
        room: *mut u8,
        room_len: usize,
        answer: *mut Answer,
    ) -> u32;
}

/// The call that the archive of a package has, under a key that the standard library takes from the system.
#[no_mangle]
#[allow(clippy::too_many_arguments)]
unsafe extern "C" fn serialcheck_list(
    bytes: *const u8,
    len: usize,
    filter: *const u8,
    filter_len: usize,
    modules: *const u8,
    modules_len: usize,
    most: usize,
    room: *mut u8,
    room_len: usize,
    answer: *mut Answer,
) -> u32 {
    let key = RandomState::new().build_hasher().finish();
    // SAFETY: as the caller owes it.
    unsafe { serialcheck_list_keyed(key, bytes, len, filter, filter_len, modules, modules_len, most, room, room_len, answer) }
}

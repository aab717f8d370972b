// Memory as ours is lent it: a copy of the data, so that a write to it is seen, and lists between guards.

/// Longer data is lent without a copy; who makes such an input looks at the data afterwards.
pub const LONGEST_COPIED: usize = 1 << 20;

/// What stands in guards around lent memory.
pub const PATTERN: u8 = 0xa5;

/// Each word of an answer must be written, so none is what it must become.
pub const UNWRITTEN: u64 = 0xdead_beef_a5a5_a5a5;

pub fn lent<'a>(data: &'a [u8], room: &'a mut Vec<u8>) -> &'a [u8] {
    if data.len() > LONGEST_COPIED {
        return data;
    }
    room.clear();
    room.extend_from_slice(data);
    room
}

pub fn changed(lent: &[u8], data: &[u8]) -> Option<&'static str> {
    (lent.as_ptr() != data.as_ptr() && lent != data).then_some("the data")
}

/// Fills a list with what stands there before the call, between two guards.
pub fn guarded<T: Clone>(list: &mut Vec<T>, before: impl IntoIterator<Item = T>, guard: &[T]) {
    list.clear();
    list.extend_from_slice(guard);
    list.extend(before);
    list.extend_from_slice(guard);
}

/// Takes the guards away, and says whether they still stood.
pub fn unguarded<T: Clone + PartialEq>(list: &mut Vec<T>, guard: &[T]) -> bool {
    let stood = list.starts_with(guard) && list.ends_with(guard);
    list.truncate(list.len() - guard.len());
    list.drain(..guard.len());
    stood
}

//! The calls of libtinyjson.a, as `tinyjson.h` declares them.

/// What a call returns.
#[derive(Clone, Copy, Debug, PartialEq, Eq)]
#[repr(transparent)]
pub(crate) struct Status(u32);

impl Status {
    pub(crate) const OK: Status = Status(0);
    pub(crate) const REFUSED: Status = Status(1);
    pub(crate) const NOT_UTF8: Status = Status(2);
    pub(crate) const TOO_SMALL: Status = Status(4);
    pub(crate) const NOT_FOUND: Status = Status(6);
    pub(crate) const BAD_POINTER: Status = Status(7);
    pub(crate) const BAD_PATCH: Status = Status(8);
    pub(crate) const FAILED: Status = Status(9);
    pub(crate) const BAD_QUERY: Status = Status(10);
    pub(crate) const PATTERN_LIMIT: Status = Status(11);
    pub(crate) const INVALID: Status = Status(12);
    pub(crate) const BAD_SCHEMA: Status = Status(13);
    pub(crate) const SCHEMA_FAULT: Status = Status(14);
    pub(crate) const STEP_LIMIT: Status = Status(15);
}

/// What a call answers besides its status.
#[repr(C)]
#[derive(Clone, Copy, Debug, Default)]
pub(crate) struct Place {
    pub(crate) kind: u32,
    pub(crate) found: u32,
    pub(crate) line: usize,
    pub(crate) column: usize,
    pub(crate) length: usize,
    pub(crate) text: usize,
}

/// A call that writes into a buffer.
pub(crate) type Writes =
    unsafe extern "C" fn(*const u8, usize, usize, *mut u8, usize, *mut Place) -> Status;

/// A call that writes into a buffer, and reads two texts.
pub(crate) type WritesOfTwo = unsafe extern "C" fn(
    *const u8,
    usize,
    *const u8,
    usize,
    usize,
    *mut u8,
    usize,
    *mut Place,
) -> Status;

extern "C" {
    fn tinyjson_check(text: *const u8, length: usize, depth: usize, place: *mut Place) -> Status;
    pub(crate) fn tinyjson_normal(
        text: *const u8,
        length: usize,
        depth: usize,
        buffer: *mut u8,
        room: usize,
        place: *mut Place,
    ) -> Status;
    pub(crate) fn tinyjson_indented(
        text: *const u8,
        length: usize,
        depth: usize,
        buffer: *mut u8,
        room: usize,
        place: *mut Place,
    ) -> Status;
    pub(crate) fn tinyjson_normal_lines(
        text: *const u8,
        length: usize,
        depth: usize,
        buffer: *mut u8,
        room: usize,
        place: *mut Place,
    ) -> Status;
    fn tinyjson_is_normal(text: *const u8, length: usize, is_normal: *mut bool) -> Status;
    fn tinyjson_equal(
        first: *const u8,
        first_length: usize,
        second: *const u8,
        second_length: usize,
        depth: usize,
        equal: *mut bool,
        place: *mut Place,
    ) -> Status;
    pub(crate) fn tinyjson_part(
        text: *const u8,
        length: usize,
        pointer: *const u8,
        pointer_length: usize,
        depth: usize,
        buffer: *mut u8,
        room: usize,
        place: *mut Place,
    ) -> Status;
    pub(crate) fn tinyjson_merge(
        target: *const u8,
        length: usize,
        patch: *const u8,
        patch_length: usize,
        depth: usize,
        buffer: *mut u8,
        room: usize,
        place: *mut Place,
    ) -> Status;
    pub(crate) fn tinyjson_patch(
        text: *const u8,
        length: usize,
        patch: *const u8,
        patch_length: usize,
        depth: usize,
        buffer: *mut u8,
        room: usize,
        place: *mut Place,
    ) -> Status;
    pub(crate) fn tinyjson_select(
        text: *const u8,
        length: usize,
        query: *const u8,
        query_length: usize,
        depth: usize,
        buffer: *mut u8,
        room: usize,
        place: *mut Place,
    ) -> Status;
    pub(crate) fn tinyjson_select_paths(
        text: *const u8,
        length: usize,
        query: *const u8,
        query_length: usize,
        depth: usize,
        buffer: *mut u8,
        room: usize,
        place: *mut Place,
    ) -> Status;
    pub(crate) fn tinyjson_select_lines(
        text: *const u8,
        length: usize,
        query: *const u8,
        query_length: usize,
        depth: usize,
        buffer: *mut u8,
        room: usize,
        place: *mut Place,
    ) -> Status;
    pub(crate) fn tinyjson_select_lines_paths(
        text: *const u8,
        length: usize,
        query: *const u8,
        query_length: usize,
        depth: usize,
        buffer: *mut u8,
        room: usize,
        place: *mut Place,
    ) -> Status;
    pub(crate) fn tinyjson_valid(
        text: *const u8,
        length: usize,
        schema: *const u8,
        schema_length: usize,
        depth: usize,
        buffer: *mut u8,
        room: usize,
        place: *mut Place,
    ) -> Status;
    pub(crate) fn tinyjson_valid_lines(
        text: *const u8,
        length: usize,
        schema: *const u8,
        schema_length: usize,
        depth: usize,
        buffer: *mut u8,
        room: usize,
        place: *mut Place,
    ) -> Status;
    fn tinyjson_message(
        place: *const Place,
        buffer: *mut u8,
        room: usize,
        length: *mut usize,
    ) -> Status;
}

// SAFETY, of each call below: a slice's pointer is valid for its length, a `&mut` buffer overlaps no `&` text, the other
// pointers are of locals, and the library keeps none of them.

pub(crate) fn check(text: &[u8], depth: usize) -> (Status, Place) {
    let mut place = Place::default();
    let status = unsafe { tinyjson_check(text.as_ptr(), text.len(), depth, &mut place) };
    (status, place)
}

pub(crate) fn write(call: Writes, text: &[u8], depth: usize, buffer: &mut [u8]) -> (Status, Place) {
    let mut place = Place::default();
    let (room, front) = (buffer.len(), buffer.as_mut_ptr());
    let status = unsafe { call(text.as_ptr(), text.len(), depth, front, room, &mut place) };
    (status, place)
}

pub(crate) fn is_normal(text: &[u8]) -> (Status, bool) {
    let mut is_normal = false;
    let status = unsafe { tinyjson_is_normal(text.as_ptr(), text.len(), &mut is_normal) };
    (status, is_normal)
}

pub(crate) fn equal(first: &[u8], second: &[u8], depth: usize) -> (Status, bool, Place) {
    let (mut equal, mut place) = (false, Place::default());
    let (front, length) = (second.as_ptr(), second.len());
    let status = unsafe {
        tinyjson_equal(
            first.as_ptr(),
            first.len(),
            front,
            length,
            depth,
            &mut equal,
            &mut place,
        )
    };
    (status, equal, place)
}

pub(crate) fn write_of_two(
    call: WritesOfTwo,
    first: &[u8],
    second: &[u8],
    depth: usize,
    buffer: &mut [u8],
) -> (Status, Place) {
    let mut place = Place::default();
    let (front, length) = (second.as_ptr(), second.len());
    let (room, target) = (buffer.len(), buffer.as_mut_ptr());
    let status = unsafe {
        call(
            first.as_ptr(),
            first.len(),
            front,
            length,
            depth,
            target,
            room,
            &mut place,
        )
    };
    (status, place)
}

/// The message of an error at a place. The longest has some 170 bytes.
pub(crate) fn message(place: &Place) -> Option<String> {
    let mut buffer = vec![0; 256];
    let mut length = 0;
    let status = unsafe { tinyjson_message(place, buffer.as_mut_ptr(), buffer.len(), &mut length) };
    if status != Status::OK {
        return None;
    }
    buffer.truncate(length);
    String::from_utf8(buffer).ok()
}

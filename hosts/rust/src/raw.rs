//! The library's declarations, as `hosts/c/cedar.h` has them, and all that is unsafe about them.

use crate::faults::{Faults, Position};
use crate::Error;
use std::alloc::{handle_alloc_error, Layout};
use std::mem::size_of;
use std::{ptr, slice, str};

/// Bytes that the library handed out, UTF-8 all of them.
#[repr(C)]
pub(crate) struct Text {
    at: *const u8,
    len: usize,
}

#[repr(C)]
pub(crate) struct RawRange {
    pub start: usize,
    pub end: usize,
    pub from: Position,
    pub to: Position,
}

#[repr(C)]
pub(crate) struct RawAnnotation {
    key: Text,
    value: Text,
}

#[repr(C)]
pub(crate) struct RawEntity {
    entity_type: Text,
    id: Text,
}

#[repr(C)]
pub(crate) struct RawScope {
    operator: Text,
    entity_type: Text,
    entities: *const RawEntity,
    entity_count: usize,
    pub is_slot: bool,
}

#[repr(C)]
pub(crate) struct RawPolicy {
    id: Text,
    printed: Text,
    annotations: *const RawAnnotation,
    annotation_count: usize,
    pub principal: RawScope,
    pub action: RawScope,
    pub resource: RawScope,
    pub place: RawRange,
    pub is_template: bool,
    pub is_forbid: bool,
}

#[repr(C)]
pub(crate) struct RawRelated {
    pub place: RawRange,
    text: Text,
}

#[repr(C)]
pub(crate) struct RawFault {
    kind: Text,
    message: Text,
    label: Text,
    help: Text,
    expected: *const Text,
    expected_count: usize,
    related: *const RawRelated,
    related_count: usize,
    pub place: RawRange,
    pub cause: RawRange,
    pub has_place: bool,
    pub follows: bool,
}

#[repr(C)]
struct RawAnswer {
    policies: *const RawPolicy,
    policy_count: usize,
    faults: *const RawFault,
    fault_count: usize,
    text: Text,
    status: u32,
}

// SAFETY, of all that holds pointers: plain data that nothing writes while it is lent.
unsafe impl Sync for Text {}
unsafe impl Sync for RawScope {}
unsafe impl Sync for RawPolicy {}
unsafe impl Sync for RawFault {}

/// Which `cedar.h` this file says.
const ABI: u32 = 1;

const _: () = assert!(size_of::<Position>() == 24 && size_of::<RawRange>() == 64);
const _: () = assert!(size_of::<RawScope>() == 56 && size_of::<RawPolicy>() == 288);
const _: () = assert!(size_of::<RawRelated>() == 80 && size_of::<RawFault>() == 232);
const _: () = assert!(size_of::<RawAnswer>() == 56);

extern "C" {
    fn cedar_parse_policies(text: *const u8, len: usize, out: *mut RawAnswer);
    fn cedar_parse_expression(text: *const u8, len: usize, out: *mut RawAnswer);
    fn cedar_format_policies(text: *const u8, len: usize, out: *mut RawAnswer);
    fn cedar_write_policies(text: *const u8, len: usize, out: *mut RawAnswer);
    fn cedar_layout_policies(
        text: *const u8,
        len: usize,
        width: usize,
        indent: usize,
        out: *mut RawAnswer,
    );
    fn cedar_answer_free(answer: *mut RawAnswer);
    fn cedar_position_of(text: *const u8, len: usize, offset: usize, out: *mut Position) -> u32;
    fn cedar_abi() -> u32;
}

/// # Safety
/// `count` items lie at `at` while `'a` lasts, and nothing writes them; or `count` is 0.
unsafe fn list<'a, T>(at: *const T, count: usize) -> &'a [T] {
    if count == 0 {
        &[]
    } else {
        slice::from_raw_parts(at, count)
    }
}

/// # Safety
/// The library handed the text out, in an answer that lives while the text is lent.
unsafe fn read(text: &Text) -> &str {
    // The library's texts are parts of a text in UTF-8, or printed by it.
    str::from_utf8_unchecked(list(text.at, text.len))
}

/// What a call handed out; freed with it. Only this file makes one, and lends what it holds.
pub(crate) struct Answer(RawAnswer);

// SAFETY: plain data that nothing writes until it is dropped, and any thread may free it.
unsafe impl Send for Answer {}
unsafe impl Sync for Answer {}

impl Drop for Answer {
    fn drop(&mut self) {
        // SAFETY: it holds nothing, or what one call wrote.
        unsafe { cedar_answer_free(&mut self.0) }
    }
}

impl Answer {
    fn new() -> Answer {
        let text = Text {
            at: ptr::null(),
            len: 0,
        };
        Answer(RawAnswer {
            policies: ptr::null(),
            policy_count: 0,
            faults: ptr::null(),
            fault_count: 0,
            text,
            status: 0,
        })
    }

    pub(crate) fn policies(&self) -> &[RawPolicy] {
        // SAFETY: of this and the next two: a call wrote them.
        unsafe { list(self.0.policies, self.0.policy_count) }
    }

    pub(crate) fn faults(&self) -> &[RawFault] {
        unsafe { list(self.0.faults, self.0.fault_count) }
    }

    pub(crate) fn text(&self) -> &str {
        unsafe { read(&self.0.text) }
    }

    fn told(self) -> Result<Answer, Error> {
        match self.0.status {
            0 => Ok(self),
            1 => Err(Error::Faults(Faults(self))),
            _ => Err(Error::Memory), // a `&str` is UTF-8
        }
    }
}

// SAFETY, of all that follows to the calls: a raw part is lent by an answer, whose call wrote it.

impl RawAnnotation {
    pub(crate) fn pair(&self) -> (&str, &str) {
        unsafe { (read(&self.key), read(&self.value)) }
    }
}

impl RawEntity {
    pub(crate) fn pair(&self) -> (&str, &str) {
        unsafe { (read(&self.entity_type), read(&self.id)) }
    }
}

impl RawScope {
    pub(crate) fn operator(&self) -> &str {
        unsafe { read(&self.operator) }
    }

    pub(crate) fn entity_type(&self) -> &str {
        unsafe { read(&self.entity_type) }
    }

    pub(crate) fn entities(&self) -> &[RawEntity] {
        unsafe { list(self.entities, self.entity_count) }
    }
}

impl RawPolicy {
    pub(crate) fn id(&self) -> &str {
        unsafe { read(&self.id) }
    }

    pub(crate) fn printed(&self) -> &str {
        unsafe { read(&self.printed) }
    }

    pub(crate) fn annotations(&self) -> &[RawAnnotation] {
        unsafe { list(self.annotations, self.annotation_count) }
    }
}

impl RawRelated {
    pub(crate) fn text(&self) -> &str {
        unsafe { read(&self.text) }
    }
}

impl RawFault {
    pub(crate) fn kind(&self) -> &str {
        unsafe { read(&self.kind) }
    }

    pub(crate) fn message(&self) -> &str {
        unsafe { read(&self.message) }
    }

    pub(crate) fn label(&self) -> &str {
        unsafe { read(&self.label) }
    }

    pub(crate) fn help(&self) -> &str {
        unsafe { read(&self.help) }
    }

    pub(crate) fn expected(&self) -> impl ExactSizeIterator<Item = &str> {
        unsafe {
            list(self.expected, self.expected_count)
                .iter()
                .map(|name| read(name))
        }
    }

    pub(crate) fn related(&self) -> &[RawRelated] {
        unsafe { list(self.related, self.related_count) }
    }
}

/// Panics where the library has other structs than this file.
fn ask_for_abi() {
    // SAFETY: it only answers.
    let abi = unsafe { cedar_abi() };
    assert_eq!(abi, ABI, "libcedar.a is of another version");
}

/// The answer of a call, which writes the answer that it is given.
fn ask(call: impl FnOnce(&mut RawAnswer)) -> Result<Answer, Error> {
    ask_for_abi();
    let mut answer = Answer::new();
    call(&mut answer.0);
    answer.told()
}

// SAFETY, of the calls: a `&str` is a pointer and a length, and `out` holds nothing.

pub(crate) fn parse_policies(text: &str) -> Result<Answer, Error> {
    ask(|out| unsafe { cedar_parse_policies(text.as_ptr(), text.len(), out) })
}

pub(crate) fn parse_expression(text: &str) -> Result<Answer, Error> {
    ask(|out| unsafe { cedar_parse_expression(text.as_ptr(), text.len(), out) })
}

pub(crate) fn format_policies(text: &str) -> Result<Answer, Error> {
    ask(|out| unsafe { cedar_format_policies(text.as_ptr(), text.len(), out) })
}

pub(crate) fn write_policies(text: &str) -> Result<Answer, Error> {
    ask(|out| unsafe { cedar_write_policies(text.as_ptr(), text.len(), out) })
}

pub(crate) fn layout_policies(text: &str, width: usize, indent: usize) -> Result<Answer, Error> {
    ask(|out| unsafe { cedar_layout_policies(text.as_ptr(), text.len(), width, indent, out) })
}

/// Where a byte stands, or `None` for want of memory.
pub(crate) fn position_of(text: &str, offset: usize) -> Option<Position> {
    ask_for_abi();
    let mut position = Position::default();
    // SAFETY: as of the calls above.
    let status = unsafe { cedar_position_of(text.as_ptr(), text.len(), offset, &mut position) };
    (status == 0).then_some(position)
}

/// Ends the process, as a collection does for which there is no memory.
pub(crate) fn end_for_want_of_memory() -> ! {
    handle_alloc_error(Layout::new::<u8>())
}

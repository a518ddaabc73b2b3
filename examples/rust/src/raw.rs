//! The library's functions as `include/prep.h` declares them, each behind a safe function on slices. The other modules
//! are made of these; they are for callers who keep words and grids of their own.
//!
//! Why these calls are safe: a slice's pointer and length are those of memory that is lent for the whole call, a
//! `&mut` slice overlaps no other, and the library asks nothing more of its callers, whatever the words are. Texts
//! are the library's own, end with a zero byte and stay as long as the program runs.

use std::ffi::CStr;
use std::os::raw::c_char;

/// A template's counts, or a refusal.
#[repr(C)]
#[derive(Clone, Copy, Debug, PartialEq, Eq)]
#[allow(missing_docs)]
pub struct TemplateAnswer {
    pub number: u16,
    pub kinds: u16,
    pub shapes: u16,
    pub place: usize,
}

/// Whether counts fit, 1 or 0, or a refusal.
#[repr(C)]
#[derive(Clone, Copy, Debug, PartialEq, Eq)]
#[allow(missing_docs)]
pub struct FitAnswer {
    pub number: u16,
    pub fits: u16,
    pub place: usize,
}

/// A script's counts, or a refusal.
#[repr(C)]
#[derive(Clone, Copy, Debug, PartialEq, Eq)]
#[allow(missing_docs)]
pub struct ScriptAnswer {
    pub number: u16,
    pub cards: u16,
    pub links: u16,
    pub place: usize,
}

/// The numbers of the largest typing, or a refusal.
#[repr(C)]
#[derive(Clone, Copy, Debug, PartialEq, Eq)]
#[allow(missing_docs)]
pub struct LargestAnswer {
    pub number: u16,
    pub place: usize,
    pub rounds: usize,
    pub struck: usize,
    pub bare: usize,
}

/// The pairs of the smallest typing, or a refusal.
#[repr(C)]
#[derive(Clone, Copy, Debug, PartialEq, Eq)]
#[allow(missing_docs)]
pub struct SmallestAnswer {
    pub number: u16,
    pub card: u16,
    pub shape: u16,
    pub place: usize,
    pub pairs: usize,
}

/// The numbers of both typings, or a refusal.
#[repr(C)]
#[derive(Clone, Copy, Debug, PartialEq, Eq)]
#[allow(missing_docs)]
pub struct BothAnswer {
    pub number: u16,
    pub card: u16,
    pub shape: u16,
    pub place: usize,
    pub rounds: usize,
    pub struck: usize,
    pub bare: usize,
    pub pairs: usize,
}

/// Nothing where a judged grid is accepted, or a refusal.
#[repr(C)]
#[derive(Clone, Copy, Debug, PartialEq, Eq)]
#[allow(missing_docs)]
pub struct JudgeAnswer {
    pub number: u16,
    pub card: u16,
    pub shape: u16,
    pub place: usize,
}

/// How many elements were written, from the start of an array, or a refusal.
#[repr(C)]
#[derive(Clone, Copy, Debug, PartialEq, Eq)]
#[allow(missing_docs)]
pub struct WrittenAnswer {
    pub number: u16,
    pub place: usize,
    pub written: usize,
}

/// The functions that refuse, for those that tell a refusal in words.
#[repr(u32)]
#[derive(Clone, Copy, Debug, PartialEq, Eq, Hash)]
#[allow(missing_docs)]
pub enum Call {
    ReadTemplate = 1,
    FitCounts = 2,
    ReadScript = 3,
    Largest = 4,
    Smallest = 5,
    BothTypings = 6,
    Judge = 7,
    TidyBookings = 8,
}

extern "C" {
    fn prep_read_template(template_words: *const u16, template_length: usize) -> TemplateAnswer;
    fn prep_fit_counts(
        template_words: *const u16,
        template_length: usize,
        shape_number: u16,
        label_counts: *const u16,
        counts_length: usize,
    ) -> FitAnswer;
    fn prep_read_script(
        template_words: *const u16,
        template_length: usize,
        script_words: *const u16,
        script_length: usize,
    ) -> ScriptAnswer;
    fn prep_links_of_card(
        template_words: *const u16,
        template_length: usize,
        script_words: *const u16,
        script_length: usize,
        card_number: u16,
        link_words: *mut u16,
        links_length: usize,
    ) -> usize;
    fn prep_largest(
        template_words: *const u16,
        template_length: usize,
        script_words: *const u16,
        script_length: usize,
        largest_grid: *mut u8,
        largest_length: usize,
    ) -> LargestAnswer;
    fn prep_smallest(
        template_words: *const u16,
        template_length: usize,
        script_words: *const u16,
        script_length: usize,
        booking_words: *const u16,
        bookings_length: usize,
        desk_number: u16,
        smallest_grid: *mut u8,
        smallest_length: usize,
    ) -> SmallestAnswer;
    fn prep_both_typings(
        template_words: *const u16,
        template_length: usize,
        script_words: *const u16,
        script_length: usize,
        booking_words: *const u16,
        bookings_length: usize,
        desk_number: u16,
        smallest_grid: *mut u8,
        smallest_length: usize,
        largest_grid: *mut u8,
        largest_length: usize,
    ) -> BothAnswer;
    fn prep_judge(
        template_words: *const u16,
        template_length: usize,
        script_words: *const u16,
        script_length: usize,
        booking_words: *const u16,
        bookings_length: usize,
        desk_number: u16,
        judged_grid: *const u8,
        judged_length: usize,
    ) -> JudgeAnswer;
    fn prep_tidy_bookings(
        template_words: *const u16,
        template_length: usize,
        script_words: *const u16,
        script_length: usize,
        stored_words: *const u16,
        stored_length: usize,
        tidied_words: *mut u16,
        tidied_length: usize,
    ) -> WrittenAnswer;
    fn prep_version() -> u32;
    fn prep_reason(refusal_number: u16) -> *const c_char;
    fn prep_file_of(refusal_number: u16) -> u32;
    fn prep_call_reason(refused_call: u32, refusal_number: u16, refusal_place: usize) -> *const c_char;
    fn prep_call_file(refused_call: u32, refusal_number: u16, refusal_place: usize) -> u32;
}

/// Read a template.
pub fn read_template(template: &[u16]) -> TemplateAnswer {
    // SAFETY: see the module.
    unsafe { prep_read_template(template.as_ptr(), template.len()) }
}

/// Fit counts: those of the outgoing kinds, then those of the incoming ones.
pub fn fit_counts(template: &[u16], shape: u16, counts: &[u16]) -> FitAnswer {
    // SAFETY: see the module.
    unsafe { prep_fit_counts(template.as_ptr(), template.len(), shape, counts.as_ptr(), counts.len()) }
}

/// Read a script.
pub fn read_script(template: &[u16], script: &[u16]) -> ScriptAnswer {
    // SAFETY: see the module.
    unsafe { prep_read_script(template.as_ptr(), template.len(), script.as_ptr(), script.len()) }
}

/// Links of a card, those that start there: how many words they are, and as many as fit in `links`.
pub fn links_of_card(template: &[u16], script: &[u16], card: u16, links: &mut [u16]) -> usize {
    // SAFETY: see the module.
    unsafe {
        prep_links_of_card(
            template.as_ptr(),
            template.len(),
            script.as_ptr(),
            script.len(),
            card,
            links.as_mut_ptr(),
            links.len(),
        )
    }
}

/// Largest.
pub fn largest(template: &[u16], script: &[u16], grid: &mut [u8]) -> LargestAnswer {
    // SAFETY: see the module.
    unsafe {
        prep_largest(
            template.as_ptr(),
            template.len(),
            script.as_ptr(),
            script.len(),
            grid.as_mut_ptr(),
            grid.len(),
        )
    }
}

/// Smallest, for the desk with this number.
pub fn smallest(
    template: &[u16],
    script: &[u16],
    bookings: &[u16],
    desk: u16,
    grid: &mut [u8],
) -> SmallestAnswer {
    // SAFETY: see the module.
    unsafe {
        prep_smallest(
            template.as_ptr(),
            template.len(),
            script.as_ptr(),
            script.len(),
            bookings.as_ptr(),
            bookings.len(),
            desk,
            grid.as_mut_ptr(),
            grid.len(),
        )
    }
}

/// Both typings, for the desk with this number.
pub fn both_typings(
    template: &[u16],
    script: &[u16],
    bookings: &[u16],
    desk: u16,
    small: &mut [u8],
    large: &mut [u8],
) -> BothAnswer {
    // SAFETY: see the module.
    unsafe {
        prep_both_typings(
            template.as_ptr(),
            template.len(),
            script.as_ptr(),
            script.len(),
            bookings.as_ptr(),
            bookings.len(),
            desk,
            small.as_mut_ptr(),
            small.len(),
            large.as_mut_ptr(),
            large.len(),
        )
    }
}

/// Judge a grid, for the desk with this number.
pub fn judge(template: &[u16], script: &[u16], bookings: &[u16], desk: u16, grid: &[u8]) -> JudgeAnswer {
    // SAFETY: see the module.
    unsafe {
        prep_judge(
            template.as_ptr(),
            template.len(),
            script.as_ptr(),
            script.len(),
            bookings.as_ptr(),
            bookings.len(),
            desk,
            grid.as_ptr(),
            grid.len(),
        )
    }
}

/// Tidy bookings: how many words are written to `tidied`, which has one word and three for each stored pair; the rest
/// stays as it was.
pub fn tidy_bookings(template: &[u16], script: &[u16], stored: &[u16], tidied: &mut [u16]) -> WrittenAnswer {
    // SAFETY: see the module.
    unsafe {
        prep_tidy_bookings(
            template.as_ptr(),
            template.len(),
            script.as_ptr(),
            script.len(),
            stored.as_ptr(),
            stored.len(),
            tidied.as_mut_ptr(),
            tidied.len(),
        )
    }
}

/// The version of the library.
pub fn version() -> u32 {
    // SAFETY: it takes nothing.
    unsafe { prep_version() }
}

/// What a refusal's number means, whichever call it is of.
pub fn reason(number: u16) -> &'static str {
    // SAFETY: see the module.
    let words = unsafe { CStr::from_ptr(prep_reason(number)) };
    words.to_str().unwrap_or("refused")
}

/// Where a refusal's place is counted, if a word or a byte is at fault, as `enum prep_file` numbers it.
pub fn file_of(number: u16) -> u32 {
    // SAFETY: it takes a plain number.
    unsafe { prep_file_of(number) }
}

/// What a refusal means that a call answered with this place.
pub fn call_reason(call: Call, number: u16, place: usize) -> &'static str {
    // SAFETY: see the module.
    let words = unsafe { CStr::from_ptr(prep_call_reason(call as u32, number, place)) };
    words.to_str().unwrap_or("refused")
}

/// Where the place of a refusal is counted that a call answered with it, as `enum prep_file` numbers it.
pub fn call_file(call: Call, number: u16, place: usize) -> u32 {
    // SAFETY: it takes plain numbers.
    unsafe { prep_call_file(call as u32, number, place) }
}

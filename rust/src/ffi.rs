//! The linked functions, and for each a safe one. `include/weszlagyo.h` says
//! what each does; a slice goes over as its pointer and its length. No
//! function keeps a pointer, and none asks for more than that what is lent to
//! it is there and does not overlap, which slices are. The stack that they need
//! is `stack`'s part.

mod linked {
    extern "C" {
        pub fn weszlagyo_new(slice: *mut u8, slice_length: usize, locale: u8, isolating: u8) -> u8;

        pub fn weszlagyo_add_resource(
            slice: *mut u8,
            slice_length: usize,
            image: *const u8,
            image_length: usize,
            list: *mut u8,
            list_length: usize,
            count: *mut usize,
        ) -> u8;

        pub fn weszlagyo_add_resource_overriding(
            slice: *mut u8,
            slice_length: usize,
            image: *const u8,
            image_length: usize,
        ) -> u8;

        pub fn weszlagyo_add_function(
            slice: *mut u8,
            slice_length: usize,
            id: *const u8,
            id_length: usize,
            code: u8,
        ) -> u8;

        pub fn weszlagyo_format(
            store: *const u8,
            store_length: usize,
            id: *const u8,
            id_length: usize,
            has_attribute: bool,
            attribute: *const u8,
            attribute_length: usize,
            arguments: *const u8,
            arguments_length: usize,
            text: *mut u8,
            text_length: usize,
            list: *mut u8,
            list_length: usize,
            work: *mut u8,
            work_length: usize,
            written: *mut usize,
            errors: *mut usize,
            begun: *mut usize,
            unfound: *mut u64,
            used: *mut usize,
        ) -> u8;

        pub fn weszlagyo_format_sheet(
            store: *const u8,
            store_length: usize,
            sheet: *const u8,
            sheet_length: usize,
            text: *mut u8,
            text_length: usize,
            list: *mut u8,
            list_length: usize,
            work: *mut u8,
            work_length: usize,
            written: *mut usize,
            errors: *mut usize,
            begun: *mut usize,
            unfound: *mut u64,
            used: *mut usize,
        ) -> u8;
    }
}

pub fn new(slice: &mut [u8], locale: u8, isolating: u8) -> u8 {
    // SAFETY: the slice is lent for the call, with its length.
    unsafe { linked::weszlagyo_new(slice.as_mut_ptr(), slice.len(), locale, isolating) }
}

pub fn add_resource(slice: &mut [u8], image: &[u8], list: &mut [u8], count: &mut usize) -> u8 {
    // SAFETY: the slices are lent for the call, each with its length, and the
    // ones that are written overlap nothing, being `&mut`.
    unsafe {
        linked::weszlagyo_add_resource(
            slice.as_mut_ptr(),
            slice.len(),
            image.as_ptr(),
            image.len(),
            list.as_mut_ptr(),
            list.len(),
            count,
        )
    }
}

pub fn add_resource_overriding(slice: &mut [u8], image: &[u8]) -> u8 {
    // SAFETY: as for `add_resource`.
    unsafe {
        linked::weszlagyo_add_resource_overriding(
            slice.as_mut_ptr(),
            slice.len(),
            image.as_ptr(),
            image.len(),
        )
    }
}

pub fn add_function(slice: &mut [u8], id: &[u8], code: u8) -> u8 {
    // SAFETY: as for `add_resource`.
    unsafe {
        linked::weszlagyo_add_function(slice.as_mut_ptr(), slice.len(), id.as_ptr(), id.len(), code)
    }
}

/// The numbers that a formatting writes, of a message or of a sheet.
#[derive(Default)]
pub struct Numbers {
    pub written: usize,
    pub errors: usize,
    pub begun: usize,
    pub unfound: u64,
    pub used: usize,
}

#[allow(clippy::too_many_arguments)]
pub fn format(
    store: &[u8],
    id: &[u8],
    attribute: Option<&[u8]>,
    arguments: &[u8],
    text: &mut [u8],
    list: &mut [u8],
    work: &mut [u8],
    numbers: &mut Numbers,
) -> u8 {
    let has_attribute = attribute.is_some();
    let attribute = attribute.unwrap_or_default();
    // SAFETY: as for `add_resource`; the five numbers are fields of their own.
    unsafe {
        linked::weszlagyo_format(
            store.as_ptr(),
            store.len(),
            id.as_ptr(),
            id.len(),
            has_attribute,
            attribute.as_ptr(),
            attribute.len(),
            arguments.as_ptr(),
            arguments.len(),
            text.as_mut_ptr(),
            text.len(),
            list.as_mut_ptr(),
            list.len(),
            work.as_mut_ptr(),
            work.len(),
            &mut numbers.written,
            &mut numbers.errors,
            &mut numbers.begun,
            &mut numbers.unfound,
            &mut numbers.used,
        )
    }
}

pub fn format_sheet(
    store: &[u8],
    sheet: &[u8],
    text: &mut [u8],
    list: &mut [u8],
    work: &mut [u8],
    numbers: &mut Numbers,
) -> u8 {
    // SAFETY: as for `format`.
    unsafe {
        linked::weszlagyo_format_sheet(
            store.as_ptr(),
            store.len(),
            sheet.as_ptr(),
            sheet.len(),
            text.as_mut_ptr(),
            text.len(),
            list.as_mut_ptr(),
            list.len(),
            work.as_mut_ptr(),
            work.len(),
            &mut numbers.written,
            &mut numbers.errors,
            &mut numbers.begun,
            &mut numbers.unfound,
            &mut numbers.used,
        )
    }
}

//! The calls of include/layout.h over the oracle's second reading of the
//! paper. It stands in for the proved library until that can be linked.

use layout_oracle::bundle::{encode, Bundle, Refusal, OUTPUT_TOO_SMALL};
use layout_oracle::fixed::fixed_answer;
use layout_oracle::followed::followed_answer;
use layout_oracle::report::report_bytes;
use layout_oracle::value::value_answer;
use layout_oracle::{reader, reference};

/// # Safety
/// A pointer that is not null must lead to `length` readable items.
unsafe fn input_slice<'a, T>(start: *const T, length: usize) -> &'a [T] {
    if length == 0 {
        return &[];
    }
    std::slice::from_raw_parts(start, length)
}

/// # Safety
/// As for `input_slice`, and nothing else may refer to the items.
unsafe fn output_slice<'a, T>(start: *mut T, length: usize) -> &'a mut [T] {
    if length == 0 {
        return &mut [];
    }
    std::slice::from_raw_parts_mut(start, length)
}

fn answer<T: Copy>(
    result: Result<Vec<T>, Refusal>,
    output: &mut [T],
    written: &mut usize,
) -> Refusal {
    match result {
        Err(refusal) => refusal,
        Ok(items) if items.len() > output.len() => OUTPUT_TOO_SMALL,
        Ok(items) => {
            output[..items.len()].copy_from_slice(&items);
            *written = items.len();
            0
        }
    }
}

fn report(bundle: &Bundle) -> Vec<u8> {
    report_bytes(&reference::violations(bundle))
}

fn renumber(bundle: &Bundle) -> Vec<u8> {
    encode(&reference::renumber(bundle))
}

/// # Safety
/// See include/layout.h.
#[no_mangle]
pub unsafe extern "C" fn layout_accept(bundle: *const u8, bundle_len: usize) -> u8 {
    match reader::read(input_slice(bundle, bundle_len)) {
        Ok(_) => 0,
        Err(refusal) => refusal,
    }
}

/// # Safety
/// See include/layout.h.
#[no_mangle]
pub unsafe extern "C" fn layout_report(
    bundle: *const u8,
    bundle_len: usize,
    out: *mut u8,
    out_len: usize,
    written: *mut usize,
) -> u8 {
    let result = reader::read(input_slice(bundle, bundle_len)).map(|tree| report(&tree));
    answer(result, output_slice(out, out_len), &mut *written)
}

/// # Safety
/// See include/layout.h.
#[no_mangle]
pub unsafe extern "C" fn layout_renumber(
    bundle: *const u8,
    bundle_len: usize,
    out: *mut u8,
    out_len: usize,
    written: *mut usize,
) -> u8 {
    let result = reader::read(input_slice(bundle, bundle_len)).map(|tree| renumber(&tree));
    answer(result, output_slice(out, out_len), &mut *written)
}

/// # Safety
/// See include/layout.h.
#[no_mangle]
pub unsafe extern "C" fn layout_chain(
    bundle: *const u8,
    bundle_len: usize,
    from: u16,
    to: u16,
    list: *mut u16,
    list_len: usize,
    written: *mut usize,
) -> u8 {
    let result = reader::read(input_slice(bundle, bundle_len))
        .map(|tree| reference::chain(&tree, from, to).unwrap_or_default());
    answer(result, output_slice(list, list_len), &mut *written)
}

/// # Safety
/// See include/layout.h.
#[no_mangle]
pub unsafe extern "C" fn layout_chain_followed(
    bundle: *const u8,
    bundle_len: usize,
    from: u16,
    to: u16,
    list: *mut u16,
    list_len: usize,
    written: *mut usize,
    followed: *mut usize,
) -> u8 {
    let found = match followed_answer(input_slice(bundle, bundle_len), from, to, list_len) {
        Err(refusal) => return refusal,
        Ok(found) => found,
    };
    *followed = found.followed;
    answer(Ok(found.names), output_slice(list, list_len), &mut *written)
}

/// # Safety
/// See include/layout.h.
#[no_mangle]
pub unsafe extern "C" fn layout_fixed_size(
    bundle: *const u8,
    bundle_len: usize,
    definition: usize,
    offsets: *mut u32,
    offsets_len: usize,
    size: *mut u64,
    alignment: *mut u64,
    written: *mut usize,
) -> u8 {
    let found = match fixed_answer(input_slice(bundle, bundle_len), definition, offsets_len) {
        Err(refusal) => return refusal,
        Ok(found) => found,
    };
    *size = found.size;
    *alignment = found.alignment;
    answer(
        Ok(found.offsets),
        output_slice(offsets, offsets_len),
        &mut *written,
    )
}

/// # Safety
/// See include/layout.h.
#[no_mangle]
pub unsafe extern "C" fn layout_size_value(
    bundle: *const u8,
    bundle_len: usize,
    definition: usize,
    value: *mut i64,
) -> u8 {
    match value_answer(input_slice(bundle, bundle_len), definition) {
        Err(refusal) => refusal,
        Ok(found) => {
            *value = found;
            0
        }
    }
}

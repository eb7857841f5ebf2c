//! Safe calls of the layout checks; `include/layout.h` says what each one does.
//!
//! ```no_run
//! let bundle = std::fs::read("winch.bundle").unwrap();
//! match layout::report_vec(&bundle) {
//!     Ok(report) => println!("{} bytes of report", report.len()),
//!     Err(refusal) => println!("refused: {refusal}"),
//! }
//! ```

mod refusal;

pub use refusal::Refusal;

/// More bytes than a bundle may have are refused as overlong.
pub const BYTE_LIMIT: usize = 32_768;
/// No chain is longer: 1,024 edges join 1,025 names.
pub const CHAIN_LIMIT: usize = 1_025;
/// No search follows the edges of more names: 1,024 edges lead to as many, and the start is one more.
pub const FOLLOWED_LIMIT: usize = 1_025;
/// No struct has more fields: 32,768 bytes hold 22 of header, definition and struct, and 4 for each field.
pub const FIELD_LIMIT: usize = 8_186;
/// The stack that a call may take, from where it is made; as in `include/layout.h`, measured and tested, and not proved.
pub const STACK_BYTES: usize = 262_144;
/// No report is longer: a violation belongs to a reference, a field or an array of
/// 3 bytes or more, so there are fewer than 11,000, and each has 16 bytes and 3 for
/// each name of its chain.
const REPORT_LIMIT: usize = 64 << 20;
/// Where `report_vec` starts; enough for all but very long reports.
const FIRST_REPORT_LENGTH: usize = 4_096;

mod calls {
    extern "C" {
        pub fn layout_accept(bundle: *const u8, bundle_len: usize) -> u8;
        pub fn layout_report(
            bundle: *const u8,
            bundle_len: usize,
            out: *mut u8,
            out_len: usize,
            written: *mut usize,
        ) -> u8;
        pub fn layout_renumber(
            bundle: *const u8,
            bundle_len: usize,
            out: *mut u8,
            out_len: usize,
            written: *mut usize,
        ) -> u8;
        pub fn layout_chain(
            bundle: *const u8,
            bundle_len: usize,
            from: u16,
            to: u16,
            list: *mut u16,
            list_len: usize,
            written: *mut usize,
        ) -> u8;
        pub fn layout_chain_followed(
            bundle: *const u8,
            bundle_len: usize,
            from: u16,
            to: u16,
            list: *mut u16,
            list_len: usize,
            written: *mut usize,
            followed: *mut usize,
        ) -> u8;
        pub fn layout_fixed_size(
            bundle: *const u8,
            bundle_len: usize,
            definition: usize,
            offsets: *mut u32,
            offsets_len: usize,
            size: *mut u64,
            alignment: *mut u64,
            written: *mut usize,
        ) -> u8;
        pub fn layout_size_value(
            bundle: *const u8,
            bundle_len: usize,
            definition: usize,
            value: *mut i64,
        ) -> u8;
    }
}

/// What `chain_followed` gives besides the names.
#[derive(Clone, Copy, Debug, PartialEq, Eq)]
pub struct Search {
    /// How many names the chain has, 0 if there is none.
    pub written: usize,
    /// How many names had their edges followed; `FOLLOWED_LIMIT` at most.
    pub followed: usize,
}

/// A chain with the count of names whose edges were followed for it.
#[derive(Clone, Debug, PartialEq, Eq)]
pub struct FollowedChain {
    /// From the start to the end of the chain; empty if there is none.
    pub names: Vec<u16>,
    /// As in `Search`.
    pub followed: usize,
}

/// What `fixed_size` gives besides the offsets.
#[derive(Clone, Copy, Debug, PartialEq, Eq)]
pub struct FixedSize {
    /// In bytes, 4,294,967,295 at most.
    pub size: u64,
    /// A power of two, 2^63 at most.
    pub alignment: u64,
    /// How many offsets there are: the fields of a struct, 0 for any other type.
    pub written: usize,
}

/// Size, alignment and field offsets of a definition.
#[derive(Clone, Debug, PartialEq, Eq)]
pub struct FixedLayout {
    /// As in `FixedSize`.
    pub size: u64,
    /// As in `FixedSize`.
    pub alignment: u64,
    /// One for each field of the struct that the definition is, or leads to as a TypeRef.
    pub offsets: Vec<u32>,
}

/// Whether the bundle is sound. Violations are no matter of this call.
pub fn accept(bundle: &[u8]) -> Result<(), Refusal> {
    // The slice is readable for its whole length, and nothing is written.
    let number = unsafe { calls::layout_accept(bundle.as_ptr(), bundle.len()) };
    outcome(number, ())
}

/// Writes the report at the start of `out` and gives its length.
pub fn report(bundle: &[u8], out: &mut [u8]) -> Result<usize, Refusal> {
    let mut written = 0;
    // Both slices are valid for their lengths, and `&mut` keeps them apart.
    let number = unsafe {
        calls::layout_report(
            bundle.as_ptr(),
            bundle.len(),
            out.as_mut_ptr(),
            out.len(),
            &mut written,
        )
    };
    outcome(number, written)
}

/// Writes the bundle with its names numbered by first appearance.
pub fn renumber(bundle: &[u8], out: &mut [u8]) -> Result<usize, Refusal> {
    let mut written = 0;
    // As in `report`.
    let number = unsafe {
        calls::layout_renumber(
            bundle.as_ptr(),
            bundle.len(),
            out.as_mut_ptr(),
            out.len(),
            &mut written,
        )
    };
    outcome(number, written)
}

/// Writes the names of the chain from one name to another; 0 if there is none.
pub fn chain(bundle: &[u8], from: u16, to: u16, list: &mut [u16]) -> Result<usize, Refusal> {
    let mut written = 0;
    // As in `report`; the list's length counts names, not bytes.
    let number = unsafe {
        calls::layout_chain(
            bundle.as_ptr(),
            bundle.len(),
            from,
            to,
            list.as_mut_ptr(),
            list.len(),
            &mut written,
        )
    };
    outcome(number, written)
}

/// Writes the same names as `chain`, and counts the names whose edges the search followed.
pub fn chain_followed(
    bundle: &[u8],
    from: u16,
    to: u16,
    list: &mut [u16],
) -> Result<Search, Refusal> {
    let (mut written, mut followed) = (0, 0);
    // As in `chain`.
    let number = unsafe {
        calls::layout_chain_followed(
            bundle.as_ptr(),
            bundle.len(),
            from,
            to,
            list.as_mut_ptr(),
            list.len(),
            &mut written,
            &mut followed,
        )
    };
    outcome(number, Search { written, followed })
}

/// Size and alignment of the definition of that number, from 0, if they are fixed. The offsets of its fields stand at
/// the start of `offsets` then.
pub fn fixed_size(
    bundle: &[u8],
    definition: usize,
    offsets: &mut [u32],
) -> Result<FixedSize, Refusal> {
    let (mut size, mut alignment, mut written) = (0, 0, 0);
    // As in `report`; the list's length counts offsets, not bytes.
    let number = unsafe {
        calls::layout_fixed_size(
            bundle.as_ptr(),
            bundle.len(),
            definition,
            offsets.as_mut_ptr(),
            offsets.len(),
            &mut size,
            &mut alignment,
            &mut written,
        )
    };
    let found = FixedSize {
        size,
        alignment,
        written,
    };
    outcome(number, found)
}

/// The value of the size of the definition of that number, from 0, which is an array, jagged or not.
pub fn size_value(bundle: &[u8], definition: usize) -> Result<i64, Refusal> {
    let mut value = 0;
    // As in `accept`; the one number that is written is this function's own.
    let number =
        unsafe { calls::layout_size_value(bundle.as_ptr(), bundle.len(), definition, &mut value) };
    outcome(number, value)
}

/// The report, in a buffer that grows as long as it is too short.
pub fn report_vec(bundle: &[u8]) -> Result<Vec<u8>, Refusal> {
    let mut out = vec![0; FIRST_REPORT_LENGTH];
    loop {
        match report(bundle, &mut out) {
            Ok(written) => {
                out.truncate(written);
                return Ok(out);
            }
            Err(Refusal::Narrow) if out.len() < REPORT_LIMIT => out.resize(out.len() * 4, 0),
            Err(refusal) => return Err(refusal),
        }
    }
}

/// The renumbered bundle.
pub fn renumber_vec(bundle: &[u8]) -> Result<Vec<u8>, Refusal> {
    let mut out = vec![0; bundle.len().min(BYTE_LIMIT)];
    let written = renumber(bundle, &mut out)?;
    out.truncate(written);
    Ok(out)
}

/// The chain from one name to another; empty if there is none.
pub fn chain_vec(bundle: &[u8], from: u16, to: u16) -> Result<Vec<u16>, Refusal> {
    let mut list = vec![0; CHAIN_LIMIT];
    let written = chain(bundle, from, to, &mut list)?;
    list.truncate(written);
    Ok(list)
}

/// The chain from one name to another with the count of names whose edges were followed.
pub fn chain_followed_vec(bundle: &[u8], from: u16, to: u16) -> Result<FollowedChain, Refusal> {
    let mut names = vec![0; CHAIN_LIMIT];
    let found = chain_followed(bundle, from, to, &mut names)?;
    names.truncate(found.written);
    Ok(FollowedChain {
        names,
        followed: found.followed,
    })
}

/// Size, alignment and field offsets of the definition of that number, if they are fixed.
pub fn fixed_size_vec(bundle: &[u8], definition: usize) -> Result<FixedLayout, Refusal> {
    let mut offsets = vec![0; FIELD_LIMIT];
    let found = fixed_size(bundle, definition, &mut offsets)?;
    offsets.truncate(found.written);
    Ok(FixedLayout {
        size: found.size,
        alignment: found.alignment,
        offsets,
    })
}

fn outcome<T>(number: u8, value: T) -> Result<T, Refusal> {
    match number {
        0 => Ok(value),
        _ => Err(Refusal::from_number(number)
            .unwrap_or_else(|| panic!("the library answered {number}, which is no refusal"))),
    }
}

//! Texts of a module's code, for printing: the listing and the count sheet.

use crate::library;
use crate::refusal::{written, Refusal};

/// The longest module that is read, in bytes.
const LONGEST: usize = 524_288;
/// The bytes of a line of the listing, its line feed included.
const LINE: usize = 53;
/// The code lines of a page.
const PAGE: usize = 50;
/// The bytes of a line of the count sheet, its line feed included.
const ROW: usize = 41;
/// The bytes of a function record at the least: its head and a Return.
const FUNCTION: usize = 8;

/// Writes the code listing of a module record to `out` from its start, and answers how many bytes it has. The rest of `out` is left as it was,
/// and after a refusal all of it. Asks questions 17 to 21 and 31.
///
/// A line has 52 characters and a line feed: function, place, instruction and operands of each instruction in order, with a page line before each
/// 50 of them (docs/FORMAT.md). Nothing is allocated.
///
/// ```
/// use rulketoos::Refusal;
///
/// let module = rulketoos::lower_to_vec(&[0, 0, 0, 3, 1, 0, 0], rulketoos::Limits::Office)?;
/// let mut out = [b'.'; 110];
/// assert_eq!(rulketoos::list(&module, &mut out), Ok(106));
/// let page = b"PAGE      1                                         \n";
/// let code = b"    0     0 Return                                  \n";
/// assert_eq!(out[..106], [&page[..], code].concat());
/// assert_eq!(out[106..], *b"....");
/// assert_eq!(rulketoos::list(&module, &mut out[..105]), Err(Refusal::ListingTooShort));
/// # Ok::<(), Refusal>(())
/// ```
///
/// # Errors
///
/// The first question that is answered no.
pub fn list(module: &[u8], out: &mut [u8]) -> Result<usize, Refusal> {
    // SAFETY: each pointer and length are a live slice's; the one that is written to is lent here alone, so they don't overlap.
    written(unsafe {
        library::rulketoos_list(module.as_ptr(), module.len(), out.as_mut_ptr(), out.len())
    })
}

/// The code listing of a module record as a new string, as [`list`] writes it. Asks questions 17 to 21: there is always room.
///
/// ```
/// // `a = -1`
/// let tree = [0, 0, 0, 18, 1, 0, 1, 5, 6, 1, b'a', 7, 1, 3, 0, 0, 0, 0, 0, 0, 0, 1];
/// let listing = rulketoos::list_to_string(&rulketoos::lower_to_vec(&tree, rulketoos::Limits::Office)?)?;
/// let lines: Vec<&str> = listing.lines().map(str::trim_end).collect();
/// assert_eq!(lines[0], "PAGE      1");
/// assert_eq!(lines[1], "    0     0 ConstI64                           1");
/// assert_eq!(lines[2], "    0     1 Neg");
/// assert_eq!(lines[3], "    0     2 StoreGlobal                        1");
/// assert_eq!(lines[4], "    0     3 Return");
/// # Ok::<(), rulketoos::Refusal>(())
/// ```
///
/// # Errors
///
/// The first question that is answered no.
pub fn list_to_string(module: &[u8]) -> Result<String, Refusal> {
    // an instruction has a byte at the least
    let most = module.len().min(LONGEST);
    to_string(LINE * (most + most.div_ceil(PAGE)), |out| list(module, out))
}

/// Writes the count sheet of a module record to `out` from its start, and answers how many bytes it has. The rest of `out` is left as it was,
/// and after a refusal all of it. Asks questions 17 to 21 and 32.
///
/// A line has 40 characters and a line feed: number, instructions, conditional jumps and calls of each function, and at last the totals
/// (docs/FORMAT.md). Nothing is allocated.
///
/// ```
/// use rulketoos::Refusal;
///
/// let module = rulketoos::lower_to_vec(&[0, 0, 0, 3, 1, 0, 0], rulketoos::Limits::Office)?;
/// let mut out = [b'.'; 85];
/// assert_eq!(rulketoos::count_sheet(&module, &mut out), Ok(82));
/// let main = b"    0      1      0      0              \n";
/// let total = b"TOTAL      1      0      0              \n";
/// assert_eq!(out[..82], [&main[..], total].concat());
/// assert_eq!(out[82..], *b"...");
/// assert_eq!(rulketoos::count_sheet(&module, &mut out[..81]), Err(Refusal::SheetTooShort));
/// # Ok::<(), Refusal>(())
/// ```
///
/// # Errors
///
/// The first question that is answered no.
pub fn count_sheet(module: &[u8], out: &mut [u8]) -> Result<usize, Refusal> {
    // SAFETY: each pointer and length are a live slice's; the one that is written to is lent here alone, so they don't overlap.
    written(unsafe {
        library::rulketoos_count_sheet(module.as_ptr(), module.len(), out.as_mut_ptr(), out.len())
    })
}

/// The count sheet of a module record as a new string, as [`count_sheet`] writes it. Asks questions 17 to 21: there is always room.
///
/// ```
/// // `print(a and b)`: LoadGlobal, JumpIfFalse, LoadGlobal, Jump, False, CallBuiltin, Pop, Return
/// let tree = b"\0\0\0\x16\x01\0\x01\x03\x09\x06\x05print\0\x01\x08\x0c\x06\x01a\x06\x01b";
/// let sheet = rulketoos::count_sheet_to_string(&rulketoos::lower_to_vec(tree, rulketoos::Limits::Office)?)?;
/// let lines: Vec<&str> = sheet.lines().map(str::trim_end).collect();
/// assert_eq!(lines, ["    0      8      1      1", "TOTAL      8      1      1"]);
/// # Ok::<(), rulketoos::Refusal>(())
/// ```
///
/// # Errors
///
/// The first question that is answered no.
pub fn count_sheet_to_string(module: &[u8]) -> Result<String, Refusal> {
    let most = module.len().min(LONGEST) / FUNCTION;
    to_string(ROW * (most + 1), |out| count_sheet(module, out))
}

/// The text that a call writes to a buffer of that room.
fn to_string(
    room: usize,
    write: impl FnOnce(&mut [u8]) -> Result<usize, Refusal>,
) -> Result<String, Refusal> {
    let mut text = vec![0; room];
    let count = write(&mut text)?;
    text.truncate(count);
    text.shrink_to_fit();
    Ok(String::from_utf8(text).expect("the library's texts are ASCII"))
}

//! The class of a size by itself, through C: the classes of many sizes, added up. A number stands for
//! the size 1 + number % 8,191, so that any numbers may be lent.

/// Adds up the classes of the sizes that the numbers stand for, modulo 2^32.
pub type Sum = fn(&mut [u32]) -> u32;

extern "C" {
    fn nostrimel_classes_by_rows(numbers: *const u32, count: usize) -> u32;
    fn nostrimel_classes_by_table(numbers: *const u32, count: usize) -> u32;
    fn nostrimel_classes_by_shared_table(numbers: *const u32, count: usize) -> u32;
}

/// By arithmetic, row by row of document 01's table: what the table of request d) is measured by.
pub fn by_rows(numbers: &mut [u32]) -> u32 {
    // SAFETY: pointer and count are those of one slice, which nothing else reaches meanwhile.
    unsafe { nostrimel_classes_by_rows(numbers.as_mut_ptr(), numbers.len()) }
}

/// By the table, each looked up by itself, as a request does.
pub fn by_table(numbers: &mut [u32]) -> u32 {
    // SAFETY: as above.
    unsafe { nostrimel_classes_by_table(numbers.as_mut_ptr(), numbers.len()) }
}

/// By one table that is made for all of them.
pub fn by_shared_table(numbers: &mut [u32]) -> u32 {
    // SAFETY: as above.
    unsafe { nostrimel_classes_by_shared_table(numbers.as_mut_ptr(), numbers.len()) }
}

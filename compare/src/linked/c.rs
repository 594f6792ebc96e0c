//! The C functions of the static library, as functions on slices; `include/formcheck.h` has them.

// A slice is passed as its start and its length. Each call returns the kind of its answer, and
// writes the kind and two values to the words of `answer`, as many as these are.
extern "C" {
    fn formcheck_names(
        list: *const u8,
        list_length: usize,
        answer: *mut u64,
        answer_length: usize,
    ) -> u32;
    fn formcheck_read(
        list: *const u8,
        list_length: usize,
        text: *const u8,
        text_length: usize,
        tree: *mut u32,
        tree_length: usize,
        answer: *mut u64,
        answer_length: usize,
    ) -> u32;
    fn formcheck_tree(
        tree: *const u32,
        tree_length: usize,
        tags: u32,
        answer: *mut u64,
        answer_length: usize,
    ) -> u32;
    fn formcheck_write(
        list: *const u8,
        list_length: usize,
        text: *const u8,
        text_length: usize,
        tree: *const u32,
        tree_length: usize,
        out: *mut u8,
        out_length: usize,
        answer: *mut u64,
        answer_length: usize,
    ) -> u32;
    fn formcheck_sheet(
        sheet: *const u32,
        sheet_length: usize,
        answer: *mut u64,
        answer_length: usize,
    ) -> u32;
    fn formcheck_sheet_from_file(
        file: *const u8,
        file_length: usize,
        sheet: *mut u32,
        sheet_length: usize,
        answer: *mut u64,
        answer_length: usize,
    ) -> u32;
    fn formcheck_judge(
        sheet: *const u32,
        sheet_length: usize,
        tree: *const u32,
        tree_length: usize,
        states: *mut u32,
        states_length: usize,
        answer: *mut u64,
        answer_length: usize,
    ) -> u32;
    fn formcheck_swap(
        sheet: *const u32,
        sheet_length: usize,
        out: *mut u32,
        out_length: usize,
        answer: *mut u64,
        answer_length: usize,
    ) -> u32;
    fn formcheck_join(
        first: *const u32,
        first_length: usize,
        second: *const u32,
        second_length: usize,
        out: *mut u32,
        out_length: usize,
        answer: *mut u64,
        answer_length: usize,
    ) -> u32;
    fn formcheck_verdict(
        list: *const u8,
        list_length: usize,
        file: *const u8,
        file_length: usize,
        text: *const u8,
        text_length: usize,
        answer: *mut u64,
        answer_length: usize,
    ) -> u32;
}

// Each function below lends a call its slices, the last one for the answer, and hands on the kind
// that the call returns.
//
// SAFETY, for each of them: the library reads and writes the slices alone that it is given, each
// for the time of the call; a slice that it writes is lent here as mutable.

pub fn names(list: &[u8], answer: &mut [u64]) -> u32 {
    unsafe { formcheck_names(list.as_ptr(), list.len(), answer.as_mut_ptr(), answer.len()) }
}

pub fn read(list: &[u8], text: &[u8], tree: &mut [u32], answer: &mut [u64]) -> u32 {
    unsafe {
        formcheck_read(
            list.as_ptr(),
            list.len(),
            text.as_ptr(),
            text.len(),
            tree.as_mut_ptr(),
            tree.len(),
            answer.as_mut_ptr(),
            answer.len(),
        )
    }
}

pub fn tree(tags: u32, tree: &[u32], answer: &mut [u64]) -> u32 {
    unsafe {
        formcheck_tree(
            tree.as_ptr(),
            tree.len(),
            tags,
            answer.as_mut_ptr(),
            answer.len(),
        )
    }
}

pub fn write(list: &[u8], text: &[u8], tree: &[u32], out: &mut [u8], answer: &mut [u64]) -> u32 {
    unsafe {
        formcheck_write(
            list.as_ptr(),
            list.len(),
            text.as_ptr(),
            text.len(),
            tree.as_ptr(),
            tree.len(),
            out.as_mut_ptr(),
            out.len(),
            answer.as_mut_ptr(),
            answer.len(),
        )
    }
}

pub fn sheet(sheet: &[u32], answer: &mut [u64]) -> u32 {
    unsafe {
        formcheck_sheet(
            sheet.as_ptr(),
            sheet.len(),
            answer.as_mut_ptr(),
            answer.len(),
        )
    }
}

pub fn sheet_from_file(file: &[u8], words: &mut [u32], answer: &mut [u64]) -> u32 {
    unsafe {
        formcheck_sheet_from_file(
            file.as_ptr(),
            file.len(),
            words.as_mut_ptr(),
            words.len(),
            answer.as_mut_ptr(),
            answer.len(),
        )
    }
}

pub fn judge(sheet: &[u32], tree: &[u32], states: &mut [u32], answer: &mut [u64]) -> u32 {
    unsafe {
        formcheck_judge(
            sheet.as_ptr(),
            sheet.len(),
            tree.as_ptr(),
            tree.len(),
            states.as_mut_ptr(),
            states.len(),
            answer.as_mut_ptr(),
            answer.len(),
        )
    }
}

pub fn swap(sheet: &[u32], out: &mut [u32], answer: &mut [u64]) -> u32 {
    unsafe {
        formcheck_swap(
            sheet.as_ptr(),
            sheet.len(),
            out.as_mut_ptr(),
            out.len(),
            answer.as_mut_ptr(),
            answer.len(),
        )
    }
}

pub fn join(first: &[u32], second: &[u32], out: &mut [u32], answer: &mut [u64]) -> u32 {
    unsafe {
        formcheck_join(
            first.as_ptr(),
            first.len(),
            second.as_ptr(),
            second.len(),
            out.as_mut_ptr(),
            out.len(),
            answer.as_mut_ptr(),
            answer.len(),
        )
    }
}

pub fn verdict(list: &[u8], file: &[u8], text: &[u8], answer: &mut [u64]) -> u32 {
    unsafe {
        formcheck_verdict(
            list.as_ptr(),
            list.len(),
            file.as_ptr(),
            file.len(),
            text.as_ptr(),
            text.len(),
            answer.as_mut_ptr(),
            answer.len(),
        )
    }
}

//! The calls of the static library, as include/rulketoos.h declares them. A slice is a pointer and a length.

unsafe extern "C" {
    pub fn rulketoos_lower(
        tree: *const u8,
        tree_len: usize,
        limits: u32,
        area1: *mut u32,
        area1_len: usize,
        area2: *mut u32,
        area2_len: usize,
        out: *mut u8,
        out_len: usize,
    ) -> u64;
    pub fn rulketoos_lower_measured(
        tree: *const u8,
        tree_len: usize,
        limits: u32,
        area1: *mut u32,
        area1_len: usize,
        area2: *mut u32,
        area2_len: usize,
        out: *mut u8,
        out_len: usize,
    ) -> u64;
    pub fn rulketoos_order(
        first: *const u8,
        first_len: usize,
        second: *const u8,
        second_len: usize,
        limits: u32,
        area1: *mut u32,
        area1_len: usize,
        area2: *mut u32,
        area2_len: usize,
    ) -> u64;
    pub fn rulketoos_cut(
        tree: *const u8,
        tree_len: usize,
        limits: u32,
        area1: *mut u32,
        area1_len: usize,
        area2: *mut u32,
        area2_len: usize,
        out: *mut u8,
        out_len: usize,
    ) -> u64;
    pub fn rulketoos_check(tree: *const u8, tree_len: usize) -> u32;
    pub fn rulketoos_read(module: *const u8, module_len: usize) -> u32;
    pub fn rulketoos_heights(
        module: *const u8,
        module_len: usize,
        area: *mut u32,
        area_len: usize,
    ) -> u32;
    pub fn rulketoos_code(module: *const u8, module_len: usize, function: u64) -> u64;
    pub fn rulketoos_list(
        module: *const u8,
        module_len: usize,
        out: *mut u8,
        out_len: usize,
    ) -> u64;
    pub fn rulketoos_count_sheet(
        module: *const u8,
        module_len: usize,
        out: *mut u8,
        out_len: usize,
    ) -> u64;
    pub fn rulketoos_reach(
        module: *const u8,
        module_len: usize,
        function: u64,
        place: u64,
        area: *mut u32,
        area_len: usize,
        answers: *mut u8,
        answers_len: usize,
    ) -> u64;
    pub fn rulketoos_run(
        module: *const u8,
        module_len: usize,
        function: u64,
        answers: *const u8,
        answers_len: usize,
        budget: u64,
        events: *mut u8,
        events_len: usize,
        numbers: *mut u64,
        numbers_len: usize,
    ) -> u32;
}

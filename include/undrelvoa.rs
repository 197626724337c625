//! The calls of undrelvoa.h for Rust; what each takes, answers and asks of its buffers is said there.
//! A program takes this file as a module:
//!
//! ```text
//! #[path = "include/undrelvoa.rs"]
//! mod calls;
//! ```

unsafe extern "C" {
    pub fn undrelvoa_value(
        opcode: u64,
        output_size: u64,
        size0: u64,
        size1: u64,
        a: u64,
        b: u64,
        result: *mut u64,
        result_len: usize,
    ) -> u64;

    pub fn undrelvoa_gather(
        order: u64,
        bytes: *const u8,
        bytes_len: usize,
        offset: u64,
        size: u64,
        result: *mut u64,
        result_len: usize,
    ) -> u64;

    pub fn undrelvoa_scatter(
        order: u64,
        bytes: *mut u8,
        bytes_len: usize,
        offset: u64,
        size: u64,
        value: u64,
    ) -> u64;

    pub fn undrelvoa_validate(
        settings: *const u64,
        settings_len: usize,
        unique_len: u64,
        register_len: u64,
        ram_len: u64,
        list: *const u64,
        list_len: usize,
        report: *mut u64,
        report_len: usize,
    ) -> u64;

    pub fn undrelvoa_run(
        settings: *const u64,
        settings_len: usize,
        list: *const u64,
        list_len: usize,
        start: u64,
        budget: u32,
        unique: *mut u8,
        unique_len: usize,
        register_space: *mut u8,
        register_len: usize,
        ram: *mut u8,
        ram_len: usize,
        log: *mut u64,
        log_len: usize,
        report: *mut u64,
        report_len: usize,
    ) -> u64;

    pub fn undrelvoa_step(
        settings: *const u64,
        settings_len: usize,
        list: *const u64,
        list_len: usize,
        start: u64,
        unique: *mut u8,
        unique_len: usize,
        register_space: *mut u8,
        register_len: usize,
        ram: *mut u8,
        ram_len: usize,
        log: *mut u64,
        log_len: usize,
        report: *mut u64,
        report_len: usize,
    ) -> u64;

    pub fn undrelvoa_labelled_run(
        settings: *const u64,
        settings_len: usize,
        list: *const u64,
        list_len: usize,
        start: u64,
        budget: u32,
        unique: *mut u8,
        unique_len: usize,
        register_space: *mut u8,
        register_len: usize,
        ram: *mut u8,
        ram_len: usize,
        unique_labels: *mut u8,
        unique_labels_len: usize,
        register_labels: *mut u8,
        register_labels_len: usize,
        ram_labels: *mut u8,
        ram_labels_len: usize,
        unique_counts: *mut u64,
        unique_counts_len: usize,
        register_counts: *mut u64,
        register_counts_len: usize,
        ram_counts: *mut u64,
        ram_counts_len: usize,
        log: *mut u64,
        log_len: usize,
        report: *mut u64,
        report_len: usize,
    ) -> u64;

    pub fn undrelvoa_labelled_step(
        settings: *const u64,
        settings_len: usize,
        list: *const u64,
        list_len: usize,
        start: u64,
        unique: *mut u8,
        unique_len: usize,
        register_space: *mut u8,
        register_len: usize,
        ram: *mut u8,
        ram_len: usize,
        unique_labels: *mut u8,
        unique_labels_len: usize,
        register_labels: *mut u8,
        register_labels_len: usize,
        ram_labels: *mut u8,
        ram_labels_len: usize,
        unique_counts: *mut u64,
        unique_counts_len: usize,
        register_counts: *mut u64,
        register_counts_len: usize,
        ram_counts: *mut u64,
        ram_counts_len: usize,
        log: *mut u64,
        log_len: usize,
        report: *mut u64,
        report_len: usize,
    ) -> u64;

    pub fn undrelvoa_speculative_run(
        settings: *const u64,
        settings_len: usize,
        list: *const u64,
        list_len: usize,
        start: u64,
        budget: u32,
        window: u64,
        unique: *mut u8,
        unique_len: usize,
        register_space: *mut u8,
        register_len: usize,
        ram: *mut u8,
        ram_len: usize,
        unique_labels: *mut u8,
        unique_labels_len: usize,
        register_labels: *mut u8,
        register_labels_len: usize,
        ram_labels: *mut u8,
        ram_labels_len: usize,
        unique_counts: *mut u64,
        unique_counts_len: usize,
        register_counts: *mut u64,
        register_counts_len: usize,
        ram_counts: *mut u64,
        ram_counts_len: usize,
        log: *mut u64,
        log_len: usize,
        journal: *mut u64,
        journal_len: usize,
        report: *mut u64,
        report_len: usize,
    ) -> u64;

    pub fn undrelvoa_count_secrets(
        unique_labels: *const u8,
        unique_labels_len: usize,
        register_labels: *const u8,
        register_labels_len: usize,
        ram_labels: *const u8,
        ram_labels_len: usize,
        unique_counts: *mut u64,
        unique_counts_len: usize,
        register_counts: *mut u64,
        register_counts_len: usize,
        ram_counts: *mut u64,
        ram_counts_len: usize,
        report: *mut u64,
        report_len: usize,
    ) -> u64;

    pub fn undrelvoa_show(
        unique: *const u8,
        unique_len: usize,
        register_space: *const u8,
        register_len: usize,
        ram: *const u8,
        ram_len: usize,
        space: u64,
        offset: u64,
        size: u64,
        place: *mut u64,
        place_len: usize,
    ) -> u64;
}

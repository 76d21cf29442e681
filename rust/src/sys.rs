//! The C functions, as include/fluviquen.h declares them.

extern "C" {
    pub fn fluviquen_measure(
        table: *const u8,
        table_len: usize,
        words: *mut u32,
        illegal_places: *mut u32,
        place: *mut usize,
    ) -> u32;
    pub fn fluviquen_section(
        table: *const u8,
        table_len: usize,
        number: u32,
        start: *mut usize,
        len: *mut usize,
    ) -> u32;
    pub fn fluviquen_reset(
        table: *const u8,
        table_len: usize,
        reg: *mut u32,
        reg_len: usize,
    ) -> u32;
    pub fn fluviquen_start(
        table: *const u8,
        table_len: usize,
        reg: *mut u32,
        reg_len: usize,
    ) -> u32;
    pub fn fluviquen_stop(table: *const u8, table_len: usize, reg: *mut u32, reg_len: usize)
        -> u32;
    pub fn fluviquen_sample(
        table: *const u8,
        table_len: usize,
        reg: *mut u32,
        reg_len: usize,
        sample: *const u32,
        sample_len: usize,
        report: *mut u32,
        report_len: usize,
    ) -> u32;
    pub fn fluviquen_samples(
        table: *const u8,
        table_len: usize,
        reg: *mut u32,
        reg_len: usize,
        samples: *const u32,
        samples_len: usize,
        reports: *mut u32,
        reports_len: usize,
        taken: *mut usize,
    ) -> u32;
    pub fn fluviquen_place_count(
        table: *const u8,
        table_len: usize,
        reg: *const u32,
        reg_len: usize,
        place: usize,
        count: *mut u32,
    ) -> u32;
    pub fn fluviquen_unknown_count(
        table: *const u8,
        table_len: usize,
        reg: *const u32,
        reg_len: usize,
        point: usize,
        count: *mut u32,
    ) -> u32;
    pub fn fluviquen_item_figure(
        table: *const u8,
        table_len: usize,
        reg: *const u32,
        reg_len: usize,
        item: usize,
        present: *mut u32,
        percent: *mut f64,
    ) -> u32;
    pub fn fluviquen_group_figure(
        table: *const u8,
        table_len: usize,
        reg: *const u32,
        reg_len: usize,
        present: *mut u32,
        millionths: *mut u32,
    ) -> u32;
}

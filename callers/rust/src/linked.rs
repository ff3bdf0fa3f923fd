//! What the static library exports, as `callers/c/mavrihkel.h` has it.
use crate::Run;

extern "C" {
    pub fn mavrihkel_outline_totals(
        points: *const i32,
        points_length: usize,
        out: *mut i64,
        out_length: usize,
    ) -> u32;

    pub fn mavrihkel_third_moments(
        points: *const i32,
        points_length: usize,
        out: *mut i64,
        out_length: usize,
    ) -> u32;

    pub fn mavrihkel_compare_walks(
        first: *const i32,
        first_length: usize,
        second: *const i32,
        second_length: usize,
        out: *mut i64,
        out_length: usize,
    ) -> u32;

    pub fn mavrihkel_fix_point(east: f32, north: f32, out: *mut i64, out_length: usize) -> u32;

    pub fn mavrihkel_map_totals(
        a: i32,
        b: i32,
        g: i32,
        h: i32,
        e: i32,
        f: i32,
        a2: i64,
        x6: i64,
        y6: i64,
        xx12: i64,
        xy24: i64,
        yy12: i64,
        out: *mut i64,
        out_length: usize,
    ) -> u32;

    pub fn mavrihkel_outline_centroid(
        a2: i64,
        x6: i64,
        y6: i64,
        xx12: i64,
        xy24: i64,
        yy12: i64,
        out: *mut i64,
        out_length: usize,
    ) -> u32;

    pub fn mavrihkel_region_totals(
        runs: *const Run,
        runs_length: usize,
        out: *mut i64,
        out_length: usize,
    ) -> u32;

    pub fn mavrihkel_mask_totals(
        words: *const u64,
        words_length: usize,
        out: *mut i64,
        out_length: usize,
    ) -> u32;

    pub fn mavrihkel_mask_runs(
        words: *const u64,
        words_length: usize,
        runs: *mut Run,
        runs_length: usize,
        out: *mut i64,
        out_length: usize,
    ) -> u32;
}

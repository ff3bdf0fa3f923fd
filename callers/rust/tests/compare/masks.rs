//! Masks: their totals, and the list of runs that the writer fills, all of it.
use crate::inputs::{mask, mask_of_runs, Random};
use crate::{narrow, reference, runs_of, totals, Met};
use mavrihkel::{mask_runs, mask_runs_into, mask_totals, mask_totals_into, region_totals};

/// A list of records of any numbers.
fn some_list(random: &mut Random, length: usize) -> Vec<[u32; 3]> {
    (0..length)
        .map(|_| [0; 3].map(|_: u32| random.next() as u32))
        .collect()
}

/// A mask in few words: its length, and its first words that have a marked cell.
fn named(words: &[u64]) -> String {
    let marked = words.iter().enumerate().filter(|(_, word)| **word != 0);
    let first: Vec<(usize, &u64)> = marked.take(4).collect();
    format!("{} words, {first:x?} ..", words.len())
}

fn compare_totals(words: &[u64], met: &mut Met) {
    let (number, wanted) = reference::mask_totals_call(words);
    let mut out = [-1; 6];
    let answer = mask_totals_into(words, &mut out);
    assert_eq!(answer, number, "{}", named(words));
    assert_eq!(out, narrow(wanted), "{}", named(words));
    met.count(number);
}

/// The writer and a list of this length. Where it is accepted, the region of the written runs has the mask's totals.
fn compare_runs(random: &mut Random, words: &[u64], length: usize, met: &mut Met) {
    let before = some_list(random, length);
    let (number, count, afterwards) = reference::mask_runs_call(words, &before);
    let (mut list, mut out) = (runs_of(&before), [-1]);
    let answer = mask_runs_into(words, &mut list, &mut out);
    assert_eq!((answer, out), (number, [count as i64]), "{}", named(words));
    assert!(list == runs_of(&afterwards), "{}", named(words));
    if number == 0 {
        assert_eq!(region_totals(&list[..count]).ok(), mask_totals(words).ok());
    }
    met.count(number);
}

/// Lists of as many records as there are runs, one more and one fewer, of none, and of many.
fn compare_lists(random: &mut Random, words: &[u64], met: &mut Met) {
    let runs = reference::longest_runs(words).len().min(5000);
    for length in [runs, runs + 1, runs.saturating_sub(1), 0, 4096, 5000] {
        compare_runs(random, words, length, met);
    }
}

#[test]
fn masks_of_few_rows() {
    let mut random = Random::seeded(11);
    let (mut answered, mut runs) = (Met::default(), Met::default());
    for rows in 0..=20 {
        for _ in 0..10 {
            let words = mask(&mut random, rows);
            compare_totals(&words, &mut answered);
            compare_lists(&mut random, &words, &mut runs);
        }
    }
    answered.each_of(&[0], 200);
    runs.each_of(&[0, 8], 200);
}

#[test]
fn masks_of_every_size() {
    let mut random = Random::seeded(12);
    let (mut answered, mut runs) = (Met::default(), Met::default());
    for rows in (24..=1024).step_by(40) {
        let words = mask(&mut random, rows);
        compare_totals(&words, &mut answered);
        compare_lists(&mut random, &words, &mut runs);
    }
    answered.each_of(&[0], 20);
    runs.each_of(&[0, 8], 20);
}

/// Every length to 48 words and about 16,384: a multiple of 16 up to that is accepted. 31 comes before 8.
#[test]
fn lengths() {
    let mut random = Random::seeded(13);
    let (mut answered, mut runs) = (Met::default(), Met::default());
    for length in (0..=48).chain([16383, 16384, 16385, 16399, 16400, 32768]) {
        let words = vec![u64::MAX; length];
        compare_totals(&words, &mut answered);
        for records in [0, 3, 1024, 4096] {
            compare_runs(&mut random, &words, records, &mut runs);
        }
    }
    answered.each_of(&[0, 31], 5);
    runs.each_of(&[0, 8, 31], 4);
}

/// 4,096 runs are written, 4,097 are not, however many the list holds; their totals are answered all the same.
#[test]
fn masks_at_the_limit() {
    let mut random = Random::seeded(14);
    let (mut answered, mut runs) = (Met::default(), Met::default());
    for rows in [9, 40, 1024] {
        for count in [4095, 4096, 4097, 4098] {
            let words = mask_of_runs(&mut random, rows, count);
            compare_totals(&words, &mut answered);
            compare_lists(&mut random, &words, &mut runs);
        }
    }
    answered.each_of(&[0], 12);
    runs.each_of(&[0, 8], 12);
}

/// A stretch from every column to every column about the ends of words and of rows, and the next row begun.
#[test]
fn runs_at_the_ends_of_words() {
    let mut random = Random::seeded(15);
    let (mut answered, mut runs) = (Met::default(), Met::default());
    let columns = [0, 1, 62, 63, 64, 65, 127, 128, 959, 960, 1022, 1023];
    for first in columns {
        for last in columns.into_iter().filter(|&last| last >= first) {
            let mut words = vec![0; 32];
            (first..=last).for_each(|column| words[column / 64] |= 1 << (column % 64));
            words[16] = 1;
            compare_totals(&words, &mut answered);
            compare_lists(&mut random, &words, &mut runs);
        }
    }
    answered.each_of(&[0], 78);
    runs.each_of(&[0, 8], 78);
}

/// The two calls as results.
#[test]
fn results() {
    let mut words = [0; 32];
    (words[0], words[1], words[15], words[16]) = (1 << 63 | 1, 3, 1 << 63, 1);
    let wanted = totals([12, 7308, 24, 12720432, 14628, 48]);
    assert_eq!(mask_totals(&words), Ok(wanted));
    let mut list = runs_of(&[[7, 8, 9]; 5]);
    assert_eq!(mask_runs(&words, &mut list), Ok(4));
    let wanted = [[0, 0, 1], [0, 63, 3], [0, 1023, 1], [1, 0, 1], [7, 8, 9]];
    assert_eq!(list, runs_of(&wanted));
    assert_eq!(mask_runs(&[], &mut []), Ok(0));
}

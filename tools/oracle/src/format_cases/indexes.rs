//! INDEXes read at a position.

use super::{LONGEST, counted, index};
use crate::cases::Cases;
use crate::generator::Generator;

/// An INDEX by its parts, whatever they are.
fn raw_index(count: u16, size: u8, offsets: &[u32], data: &[u8]) -> Vec<u8> {
    let mut out = count.to_be_bytes().to_vec();
    out.push(size);
    for offset in offsets {
        let bytes = offset.to_be_bytes();
        out.extend_from_slice(&bytes[4 - usize::from(size.clamp(1, 4))..]);
    }
    out.extend_from_slice(data);
    out
}

/// The offsets of items of these lengths, the first one given.
fn offsets(first: u32, lengths: &[u32]) -> Vec<u32> {
    let mut all = vec![first];
    for length in lengths {
        all.push(all[all.len() - 1] + length);
    }
    all
}

pub(super) fn chosen_indexes(cases: &mut Cases) {
    // Count 0, and positions around the end of the font.
    for font in [
        &[][..],
        &[0],
        &[0, 0],
        &[0, 0, 1],
        &[0, 0, 0, 0],
        &[0, 0, 9, 9, 9],
        &[7, 0, 0],
        &[7, 0, 0, 5, 6],
    ] {
        for pos in [0, 1, 2, 3, 4, 5, 6, 255, 256, 65535] {
            index(cases, pos, font);
        }
    }
    // Every byte of an INDEX missing in turn, at two positions.
    for size in 1..=4 {
        let whole = raw_index(2, size, &offsets(1, &[2, 3]), &counted(5));
        for cut in 0..=whole.len() {
            index(cases, 0, &whole[..cut]);
        }
        let late = [&[1, 0, 4, 1][..], &whole].concat();
        for cut in 2..=late.len() {
            index(cases, 4, &late[..cut]);
        }
    }
    // An offset size outside 1 to 4: refused before an offset is read, and not looked at when the count is 0.
    for size in [0, 5, 6, 8, 128, 255] {
        for behind in [0, 1, 4, 20] {
            index(cases, 0, &raw_index(1, size, &[], &vec![1; behind]));
            index(cases, 0, &raw_index(0, size, &[], &vec![1; behind]));
        }
    }
    for size in 1..=4 {
        offset_lists(cases, size);
    }
    first_offsets(cases);
    // As many items as the font holds, of no length, and one byte too few.
    for (size, count) in [(1u8, 116u16), (2, 57), (3, 38), (4, 28)] {
        let list = vec![1u32; usize::from(count) + 1];
        let font = raw_index(count, size, &list, &[]);
        index(cases, 0, &font);
        index(cases, 0, &font[..font.len() - 1]);
        index(cases, 0, &raw_index(count + 1, size, &list, &[]));
    }
    // Counts far past the font.
    for count in [255, 256, 257, 32768, 65535] {
        for size in 1..=4 {
            index(cases, 0, &raw_index(count, size, &[1; 20], &counted(20)));
        }
    }
}

/// First offsets other than 1: few, since they are answered by document 02, Wish 5, and not by the original.
fn first_offsets(cases: &mut Cases) {
    for size in [1u8, 4] {
        let most = u32::MAX >> (32 - 8 * u32::from(size));
        #[rustfmt::skip]
        let lists: &[&[u32]] = &[
            &[0, 0], &[0, 1], &[0, 3, 4], &[2, 2], &[2, 5], &[3, 4, 6], &[11, 11], &[most, most],
            // Pairs behind it that fall, and that are past the end.
            &[2, 1], &[3, 2, 5], &[0, 60], &[2, 60], &[3, 5, 60],
        ];
        for list in lists {
            let count = list.len() as u16 - 1;
            index(cases, 0, &raw_index(count, size, list, &counted(10)));
        }
    }
    for (size, first) in [(2, 0), (2, 2), (2, 256), (3, 0), (3, 3), (3, 65_537)] {
        let whole = raw_index(1, size, &[first, first], &counted(9));
        index(cases, 2, &[&[9, 9], &whole[..]].concat());
    }
    // The offset size and missing offsets come before it.
    for first in [0, 2, 3] {
        index(cases, 0, &raw_index(1, 0, &[first, 4], &counted(9)));
        index(cases, 0, &raw_index(1, 5, &[first, 4], &counted(9)));
        for behind in [&[][..], &[0], &[0, 5]] {
            index(cases, 0, &raw_index(3, 2, &[first, 4, 5], behind));
        }
    }
}

/// Offsets from 1 on, in order and out of it, over 9 and 10 bytes of data.
fn offset_lists(cases: &mut Cases, size: u8) {
    let most = u32::MAX >> (32 - 8 * u32::from(size));
    #[rustfmt::skip]
    let lists: &[&[u32]] = &[
        // With and without items of no length.
        &[1, 1], &[1, 2], &[1, 4], &[1, 9], &[1, 1, 1], &[1, 1, 4], &[1, 4, 4], &[1, 2, 4], &[1, 1, 1, 8], &[1, 2, 2, 8],
        // Zero at each place.
        &[1, 0], &[1, 0, 0], &[1, 0, 4], &[1, 3, 0], &[1, 3, 0, most],
        // Falling pairs at each place.
        &[1, 5, 4], &[1, 5, 4, 9], &[1, 2, 5, 4], &[1, most, 1], &[1, most, most - 1], &[1, 5, 1],
        // Past the end at each place; the verdict of the first bad pair.
        &[1, 11], &[1, 12], &[1, 60], &[1, 5, 60], &[1, 60, 60], &[1, 60, 61], &[1, 60, 61, 62], &[1, 60, 61, 3],
        &[1, 60, 3], &[1, 60, 0], &[1, 3, 2, 60], &[1, 3, 60, 2], &[1, 3, 2, 60, 61], &[1, most], &[1, most, most], &[1, 4, most],
        // The end itself.
        &[1, 10], &[1, 4, 10], &[1, 10, 10], &[1, 1, 10], &[1, 10, 11], &[1, 10, 9], &[1, 9, 10, 11],
    ];
    for list in lists {
        let count = list.len() as u16 - 1;
        for data in [9, 10] {
            let font = raw_index(count, size, list, &counted(data));
            index(cases, 0, &font);
        }
        let font = [&counted(6), &raw_index(count, size, list, &counted(10))[..]].concat();
        index(cases, 6, &font);
    }
}

pub(super) fn random_index(cases: &mut Cases, random: &mut Generator) {
    let pos = random.one_of(&[0, 0, 1, 3, 4, 4, 10, 23]);
    let size = 1 + random.below(4) as u8;
    let count = 1 + random.below(9);
    let lengths: Vec<u32> = (0..count)
        .map(|_| {
            if random.once_in(3) {
                0
            } else {
                random.below(6) as u32
            }
        })
        .collect();
    let first = if random.once_in(40) {
        random.one_of(&[0, 2, 3, 4])
    } else {
        1
    };
    let mut list = offsets(first, &lengths);
    let length = list[count].saturating_sub(1) as usize;
    let tail = if random.once_in(2) {
        0
    } else {
        random.below(5)
    };
    let way = random.below(8);
    if way == 1 {
        // One offset out of order.
        let k = 1 + random.below(count);
        list[k] = random.one_of(&[
            0,
            1,
            list[k] + 1,
            list[k] + 20,
            list[k].saturating_sub(1),
            200,
        ]);
    }
    if way == 2 {
        let (a, b) = (1 + random.below(count), 1 + random.below(count));
        list.swap(a, b);
    }
    let data = random.bytes(length + tail);
    let mut font = random.bytes(pos);
    font.extend(raw_index(count as u16, size, &list, &data));
    font.truncate(LONGEST);
    match way {
        3 => font.truncate(font.len() - 1 - random.below((tail + 2).min(font.len()))),
        4 => font.truncate(random.below(font.len() + 1)),
        5 => {
            // A byte of the count, the size or the offsets behind the first one changed.
            let size = usize::from(size);
            let head = (3 + count * size).min(font.len() - pos - size);
            let at = random.below(head);
            let at = pos + if at < 3 { at } else { at + size };
            font[at] = random.one_of(&[0, 1, 2, 3, 4, 5, 255, 128, 16]);
        }
        _ => {}
    }
    index(cases, pos, &font);
    if random.once_in(12) {
        index(cases, pos + 1 + random.below(3), &font);
    }
}

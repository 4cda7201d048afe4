//! Made fonts with many glyphs, by names or by CIDs in any order: every glyph calls a subroutine, and every sixth has a mask.

/// The most glyphs there are, and the most that have names of their own: string ids from 391 to 64,999, and glyph 0.
pub const MOST_GLYPHS: usize = 65_535;
pub const MOST_NAMES: usize = 64_610;

/// One glyph in so many has a mask: of 65,535 more than the library sorts at a time.
const MASKS: usize = 6;

fn index(items: &[Vec<u8>]) -> Vec<u8> {
    let mut out = (items.len() as u16).to_be_bytes().to_vec();
    if items.is_empty() {
        return out;
    }
    out.push(4);
    let mut end = 1_u32;
    out.extend(end.to_be_bytes());
    for item in items {
        end += item.len() as u32;
        out.extend(end.to_be_bytes());
    }
    out.extend(items.concat());
    out
}

/// An entry of a DICT, its numbers in the form of five bytes.
fn entry(operands: &[usize], operator: &[u8]) -> Vec<u8> {
    let number = |&n: &usize| [&[29], &(n as u32).to_be_bytes()[..]].concat();
    let operands: Vec<u8> = operands.iter().flat_map(number).collect();
    [&operands, operator].concat()
}

/// Glyph 0 and a glyph for each id: CIDs, or ids of the strings. The culprit has a call behind its end, which costs the small file.
fn font(ids: &[u16], strings: Option<&[Vec<u8>]>, culprit: Option<usize>) -> Vec<u8> {
    let glyphs = ids.len() + 1;
    let charstring = |k: usize| match k {
        k if Some(k) == culprit => vec![14, 33, 10],
        k if k % MASKS == 0 => vec![139, 140, 1, 19, 0x80, 32, 10, 14],
        _ => vec![32, 10, 14],
    };
    let mut charset = vec![0];
    charset.extend(ids.iter().flat_map(|id| id.to_be_bytes()));
    let charstrings = index(&(0..glyphs).map(charstring).collect::<Vec<_>>());
    // A Private DICT of six bytes, and two subroutines: a path, and a return.
    let locals = index(&[vec![140, 22, 11], vec![11]]);
    let private = [entry(&[6], &[19]), locals].concat();
    // FDSelect of format 3: one range.
    let end = (glyphs as u16).to_be_bytes();
    let select = vec![3, 0, 1, 0, 0, 0, end[0], end[1]];
    let top = |[charset, charstrings, private, array, select]: [usize; 5]| {
        let both = [entry(&[charset], &[15]), entry(&[charstrings], &[17])].concat();
        match strings {
            Some(_) => [both, entry(&[6, private], &[18])].concat(),
            None => {
                let ros = vec![139, 139, 139, 12, 30];
                let fds = [entry(&[array], &[12, 36]), entry(&[select], &[12, 37])].concat();
                [ros, both, fds].concat()
            }
        }
    };
    let front = |places| {
        let strings = index(strings.unwrap_or(&[]));
        let (name, top) = (index(&[b"Made".to_vec()]), index(&[top(places)]));
        [vec![1, 0, 4, 4], name, top, strings, index(&[])].concat()
    };
    let start = front([0; 5]).len();
    let charstrings_at = start + charset.len();
    let private_at = charstrings_at + charstrings.len();
    let array = index(&[entry(&[6, private_at], &[18])]);
    let array_at = private_at + private.len();
    let places = [
        start,
        charstrings_at,
        private_at,
        array_at,
        array_at + array.len(),
    ];
    [front(places), charset, charstrings, private, array, select].concat()
}

/// A name-keyed font with these names.
pub fn named(names: &[Vec<u8>], culprit: Option<usize>) -> Vec<u8> {
    let ids: Vec<u16> = (0..names.len() as u16).map(|k| 391 + k).collect();
    font(&ids, Some(names), culprit)
}

/// How the CIDs of 65,534 glyphs and glyph 0 go.
pub const ORDERS: [&str; 3] = ["rise", "fall", "in any order"];

/// A CID-keyed font with the most glyphs.
pub fn cid_keyed(order: &str, culprit: Option<usize>) -> Vec<u8> {
    let mut cids: Vec<u16> = (1..MOST_GLYPHS as u16).collect();
    match order {
        "fall" => cids.reverse(),
        "in any order" => shuffle(&mut cids),
        _ => {}
    }
    font(&cids, None, culprit)
}

/// A name-keyed font of these charstrings, whose names are those of the standard charset, and these subroutines.
pub fn standard(charstrings: &[Vec<u8>], globals: &[Vec<u8>], locals: &[Vec<u8>]) -> Vec<u8> {
    let front = |charstrings, private| {
        let top = [entry(&[charstrings], &[17]), entry(&[6, private], &[18])].concat();
        let (name, top) = (index(&[b"Made".to_vec()]), index(&[top]));
        [vec![1, 0, 4, 4], name, top, index(&[]), index(globals)].concat()
    };
    let charstrings_at = front(0, 0).len();
    let charstrings = index(charstrings);
    // A Private DICT of six bytes, and its subroutines.
    let private = [entry(&[6], &[19]), index(locals)].concat();
    let front = front(charstrings_at, charstrings_at + charstrings.len());
    [front, charstrings, private].concat()
}

/// Another order, always the same.
pub fn shuffle<T>(list: &mut [T]) {
    let mut state = 0x9e37_79b9_7f4a_7c15_u64;
    for k in (1..list.len()).rev() {
        state ^= state << 13;
        state ^= state >> 7;
        state ^= state << 17;
        list.swap(k, (state >> 16) as usize % (k + 1));
    }
}

//! HarfBuzz's subsetter in process, on an OpenType font of the few tables that it asks for around the same CFF table.

/// The font that HarfBuzz is given.
pub fn wrapped(cff: &[u8], glyphs: usize) -> Vec<u8> {
    let mut head = vec![0; 54];
    head[..4].copy_from_slice(&[0, 1, 0, 0]);
    head[12..16].copy_from_slice(&[0x5f, 0x0f, 0x3c, 0xf5]);
    head[18..20].copy_from_slice(&1000_u16.to_be_bytes());
    let mut hhea = vec![0; 36];
    hhea[..4].copy_from_slice(&[0, 1, 0, 0]);
    hhea[35] = 1;
    let mut hmtx = vec![0; 4 + 2 * (glyphs - 1)];
    hmtx[..2].copy_from_slice(&500_u16.to_be_bytes());
    let mut maxp = vec![0, 0, 0x50, 0];
    maxp.extend((glyphs as u16).to_be_bytes());
    let tables: [(&[u8; 4], &[u8]); 5] = [
        (b"CFF ", cff),
        (b"head", &head),
        (b"hhea", &hhea),
        (b"hmtx", &hmtx),
        (b"maxp", &maxp),
    ];
    let mut directory = b"OTTO\0\x05\0\0\0\0\0\0".to_vec();
    let mut body = Vec::new();
    for (tag, bytes) in tables {
        let at = 12 + 16 * tables.len() + body.len();
        directory.extend(tag);
        directory.extend([0; 4]);
        directory.extend((at as u32).to_be_bytes());
        directory.extend((bytes.len() as u32).to_be_bytes());
        body.extend(bytes);
        body.resize(body.len().next_multiple_of(4), 0);
    }
    directory.extend(body);
    directory
}

/// HarfBuzz is not there.
#[cfg(not(harfbuzz))]
pub fn cut(_: &[u8], _: &[u16]) -> Option<usize> {
    None
}

/// Reads the font and makes the subset of these glyphs; its length.
#[cfg(harfbuzz)]
pub fn cut(font: &[u8], keep: &[u16]) -> Option<usize> {
    use std::ffi::{c_char, c_int, c_uint, c_void};
    use std::ptr::null_mut;

    unsafe extern "C" {
        fn hb_blob_create(
            data: *const c_char,
            length: c_uint,
            mode: c_int,
            user: *mut c_void,
            destroy: *mut c_void,
        ) -> *mut c_void;
        fn hb_blob_destroy(blob: *mut c_void);
        fn hb_blob_get_length(blob: *mut c_void) -> c_uint;
        fn hb_face_create(blob: *mut c_void, index: c_uint) -> *mut c_void;
        fn hb_face_destroy(face: *mut c_void);
        fn hb_face_reference_blob(face: *mut c_void) -> *mut c_void;
        fn hb_set_add(set: *mut c_void, codepoint: u32);
        fn hb_subset_input_create_or_fail() -> *mut c_void;
        fn hb_subset_input_destroy(input: *mut c_void);
        fn hb_subset_input_glyph_set(input: *mut c_void) -> *mut c_void;
        fn hb_subset_or_fail(face: *mut c_void, input: *const c_void) -> *mut c_void;
    }
    const READONLY: c_int = 1;
    // SAFETY: each object is used while it lives and destroyed once; the bytes outlive the blob.
    unsafe {
        let blob = hb_blob_create(
            font.as_ptr().cast(),
            font.len() as c_uint,
            READONLY,
            null_mut(),
            null_mut(),
        );
        let face = hb_face_create(blob, 0);
        let input = hb_subset_input_create_or_fail();
        let set = hb_subset_input_glyph_set(input);
        for &glyph in keep {
            hb_set_add(set, u32::from(glyph));
        }
        let subset = hb_subset_or_fail(face, input);
        let mut length = None;
        if !subset.is_null() {
            let written = hb_face_reference_blob(subset);
            length = Some(hb_blob_get_length(written) as usize);
            hb_blob_destroy(written);
            hb_face_destroy(subset);
        }
        hb_subset_input_destroy(input);
        hb_face_destroy(face);
        hb_blob_destroy(blob);
        length
    }
}

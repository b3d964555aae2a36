//! Oysterfold for Rust: the library's exported functions as safe ones, each lent slices. `include/oysterfold.h` says of each what is
//! lent, what comes back, and every number that it answers.
//!
//! Take it in as a module (`#[path = "include/oysterfold.rs"] mod oysterfold;`) and link the archive (`-l static=oysterfold`).

// A caller uses some of these.
#![allow(dead_code)]

/// What a walk is asked for: a direction, 0 up or 1 down, and how many steps, at most 4,096.
#[repr(C)]
#[derive(Clone, Copy, PartialEq, Eq, Debug)]
pub struct Request {
    pub direction: u32,
    pub count: u32,
}

/// Words of the result of `header`.
pub const HEADER_RESULT: usize = 8;

/// The profile's bit for defined units: the header has a units scaling factor.
pub const DEFINED_UNITS: u32 = 0x8;

/// A file's header. `units` is the bit pattern of the units scaling factor, an F64, and 0 where the profile has no bit 0x8; `next` is the
/// offset of the next block.
#[derive(Clone, Copy, PartialEq, Eq, Debug)]
pub struct Header {
    pub minor_version: u16,
    pub profile: u32,
    pub declaration_size: u32,
    pub file_size: u64,
    pub encoding: u32,
    pub units: u64,
    pub next: usize,
}

/// A refusal: its number and its place.
#[derive(Clone, Copy, PartialEq, Eq, Debug)]
pub struct Refused {
    pub number: u32,
    pub place: u64,
}

impl Header {
    /// The header of a file, judged as the walk judges the first block.
    pub fn read(file: &[u8]) -> Result<Header, Refused> {
        let mut result = [0; HEADER_RESULT];
        let number = header(file, &mut result);
        let [place, minor_version, profile, declaration_size, file_size, encoding, units, next] =
            result;
        if number != 0 {
            return Err(Refused { number, place });
        }
        Ok(Header {
            minor_version: minor_version as u16,
            profile: profile as u32,
            declaration_size: declaration_size as u32,
            file_size,
            encoding: encoding as u32,
            units,
            next: next as usize,
        })
    }

    /// Metres in a unit, where the file has defined units.
    pub fn metres(&self) -> Option<f64> {
        (self.profile & DEFINED_UNITS != 0).then(|| f64::from_bits(self.units))
    }
}

extern "C" {
    fn oysterfold_header(
        file: *const u8,
        file_len: usize,
        result: *mut u64,
        result_len: usize,
    ) -> u32;
    fn oysterfold_walk(
        file: *const u8,
        file_len: usize,
        rows: *mut u32,
        rows_len: usize,
        result: *mut u64,
        result_len: usize,
    ) -> u32;
    fn oysterfold_listing(
        file: *const u8,
        file_len: usize,
        text: *mut u8,
        text_len: usize,
        result: *mut u64,
        result_len: usize,
    ) -> u32;
    fn oysterfold_declaration(
        data: *const u8,
        data_len: usize,
        fields: *mut u32,
        fields_len: usize,
        result: *mut u64,
        result_len: usize,
    ) -> u32;
    fn oysterfold_read_mesh(
        declaration: *const u8,
        declaration_len: usize,
        continuation: *const u8,
        continuation_len: usize,
        faces: *mut u32,
        faces_len: usize,
        positions: *mut u32,
        positions_len: usize,
        normals: *mut u32,
        normals_len: usize,
        diffuse: *mut u32,
        diffuse_len: usize,
        specular: *mut u32,
        specular_len: usize,
        texture: *mut u32,
        texture_len: usize,
        result: *mut u64,
        result_len: usize,
    ) -> u32;
    fn oysterfold_writer_fresh(state: *mut u64, state_len: usize) -> u32;
    fn oysterfold_reader_fresh(state: *mut u64, state_len: usize) -> u32;
    fn oysterfold_histogram_fresh(histogram: *mut u32, histogram_len: usize) -> u32;
    fn oysterfold_write_static(
        state: *mut u64,
        state_len: usize,
        buffer: *mut u8,
        buffer_len: usize,
        range: u32,
        value: u32,
    ) -> u32;
    fn oysterfold_write_dynamic(
        state: *mut u64,
        state_len: usize,
        buffer: *mut u8,
        buffer_len: usize,
        histogram: *mut u32,
        histogram_len: usize,
        value: u32,
    ) -> u32;
    fn oysterfold_write_plain(
        state: *mut u64,
        state_len: usize,
        buffer: *mut u8,
        buffer_len: usize,
        bytes: u32,
        value: u32,
    ) -> u32;
    fn oysterfold_write_end(
        state: *mut u64,
        state_len: usize,
        buffer: *mut u8,
        buffer_len: usize,
        result: *mut u64,
        result_len: usize,
    ) -> u32;
    fn oysterfold_read_static(
        state: *mut u64,
        state_len: usize,
        data: *const u8,
        data_len: usize,
        range: u32,
        result: *mut u64,
        result_len: usize,
    ) -> u32;
    fn oysterfold_read_dynamic(
        state: *mut u64,
        state_len: usize,
        data: *const u8,
        data_len: usize,
        histogram: *mut u32,
        histogram_len: usize,
        result: *mut u64,
        result_len: usize,
    ) -> u32;
    fn oysterfold_read_plain(
        state: *mut u64,
        state_len: usize,
        data: *const u8,
        data_len: usize,
        bytes: u32,
        result: *mut u64,
        result_len: usize,
    ) -> u32;
    fn oysterfold_read_climb(
        text: *const u8,
        text_len: usize,
        table: *mut u32,
        table_len: usize,
        result: *mut u64,
        result_len: usize,
    ) -> u32;
    fn oysterfold_up(
        list: *const u32,
        list_len: usize,
        shadings: u32,
        faces: *mut u32,
        faces_len: usize,
        positions: *mut u32,
        positions_len: usize,
        counts: *mut u32,
        counts_len: usize,
    ) -> u32;
    fn oysterfold_down(
        list: *const u32,
        list_len: usize,
        shadings: u32,
        faces: *mut u32,
        faces_len: usize,
        positions: *mut u32,
        positions_len: usize,
        counts: *mut u32,
        counts_len: usize,
    ) -> u32;
    fn oysterfold_steps(
        list: *const u32,
        list_len: usize,
        shadings: u32,
        requests: *const Request,
        requests_len: usize,
        faces: *mut u32,
        faces_len: usize,
        positions: *mut u32,
        positions_len: usize,
        counts: *mut u32,
        counts_len: usize,
        result: *mut u64,
        result_len: usize,
    ) -> u32;
}

// Each pointer below comes from a slice of the length given beside it, is used during the call only, and none overlap.
pub fn header(file: &[u8], result: &mut [u64]) -> u32 {
    unsafe { oysterfold_header(file.as_ptr(), file.len(), result.as_mut_ptr(), result.len()) }
}

pub fn walk(file: &[u8], rows: &mut [u32], result: &mut [u64]) -> u32 {
    unsafe {
        oysterfold_walk(
            file.as_ptr(),
            file.len(),
            rows.as_mut_ptr(),
            rows.len(),
            result.as_mut_ptr(),
            result.len(),
        )
    }
}

pub fn listing(file: &[u8], text: &mut [u8], result: &mut [u64]) -> u32 {
    unsafe {
        oysterfold_listing(
            file.as_ptr(),
            file.len(),
            text.as_mut_ptr(),
            text.len(),
            result.as_mut_ptr(),
            result.len(),
        )
    }
}

pub fn declaration(data: &[u8], fields: &mut [u32], result: &mut [u64]) -> u32 {
    unsafe {
        oysterfold_declaration(
            data.as_ptr(),
            data.len(),
            fields.as_mut_ptr(),
            fields.len(),
            result.as_mut_ptr(),
            result.len(),
        )
    }
}

/// Faces, positions, normals, diffuse and specular colors, texture coordinates.
pub fn read_mesh(
    declaration: &[u8],
    continuation: &[u8],
    tables: [&mut [u32]; 6],
    result: &mut [u64],
) -> u32 {
    let [faces, positions, normals, diffuse, specular, texture] = tables;
    unsafe {
        oysterfold_read_mesh(
            declaration.as_ptr(),
            declaration.len(),
            continuation.as_ptr(),
            continuation.len(),
            faces.as_mut_ptr(),
            faces.len(),
            positions.as_mut_ptr(),
            positions.len(),
            normals.as_mut_ptr(),
            normals.len(),
            diffuse.as_mut_ptr(),
            diffuse.len(),
            specular.as_mut_ptr(),
            specular.len(),
            texture.as_mut_ptr(),
            texture.len(),
            result.as_mut_ptr(),
            result.len(),
        )
    }
}

pub fn writer_fresh(state: &mut [u64]) -> u32 {
    unsafe { oysterfold_writer_fresh(state.as_mut_ptr(), state.len()) }
}

pub fn reader_fresh(state: &mut [u64]) -> u32 {
    unsafe { oysterfold_reader_fresh(state.as_mut_ptr(), state.len()) }
}

pub fn histogram_fresh(histogram: &mut [u32]) -> u32 {
    unsafe { oysterfold_histogram_fresh(histogram.as_mut_ptr(), histogram.len()) }
}

pub fn write_static(state: &mut [u64], buffer: &mut [u8], range: u32, value: u32) -> u32 {
    unsafe {
        oysterfold_write_static(
            state.as_mut_ptr(),
            state.len(),
            buffer.as_mut_ptr(),
            buffer.len(),
            range,
            value,
        )
    }
}

pub fn write_dynamic(
    state: &mut [u64],
    buffer: &mut [u8],
    histogram: &mut [u32],
    value: u32,
) -> u32 {
    unsafe {
        oysterfold_write_dynamic(
            state.as_mut_ptr(),
            state.len(),
            buffer.as_mut_ptr(),
            buffer.len(),
            histogram.as_mut_ptr(),
            histogram.len(),
            value,
        )
    }
}

pub fn write_plain(state: &mut [u64], buffer: &mut [u8], bytes: u32, value: u32) -> u32 {
    unsafe {
        oysterfold_write_plain(
            state.as_mut_ptr(),
            state.len(),
            buffer.as_mut_ptr(),
            buffer.len(),
            bytes,
            value,
        )
    }
}

pub fn write_end(state: &mut [u64], buffer: &mut [u8], result: &mut [u64]) -> u32 {
    unsafe {
        oysterfold_write_end(
            state.as_mut_ptr(),
            state.len(),
            buffer.as_mut_ptr(),
            buffer.len(),
            result.as_mut_ptr(),
            result.len(),
        )
    }
}

pub fn read_static(state: &mut [u64], data: &[u8], range: u32, result: &mut [u64]) -> u32 {
    unsafe {
        oysterfold_read_static(
            state.as_mut_ptr(),
            state.len(),
            data.as_ptr(),
            data.len(),
            range,
            result.as_mut_ptr(),
            result.len(),
        )
    }
}

pub fn read_dynamic(
    state: &mut [u64],
    data: &[u8],
    histogram: &mut [u32],
    result: &mut [u64],
) -> u32 {
    unsafe {
        oysterfold_read_dynamic(
            state.as_mut_ptr(),
            state.len(),
            data.as_ptr(),
            data.len(),
            histogram.as_mut_ptr(),
            histogram.len(),
            result.as_mut_ptr(),
            result.len(),
        )
    }
}

pub fn read_plain(state: &mut [u64], data: &[u8], bytes: u32, result: &mut [u64]) -> u32 {
    unsafe {
        oysterfold_read_plain(
            state.as_mut_ptr(),
            state.len(),
            data.as_ptr(),
            data.len(),
            bytes,
            result.as_mut_ptr(),
            result.len(),
        )
    }
}

pub fn read_climb(text: &[u8], table: &mut [u32], result: &mut [u64]) -> u32 {
    unsafe {
        oysterfold_read_climb(
            text.as_ptr(),
            text.len(),
            table.as_mut_ptr(),
            table.len(),
            result.as_mut_ptr(),
            result.len(),
        )
    }
}

pub fn up(
    list: &[u32],
    shadings: u32,
    faces: &mut [u32],
    positions: &mut [u32],
    counts: &mut [u32],
) -> u32 {
    unsafe {
        oysterfold_up(
            list.as_ptr(),
            list.len(),
            shadings,
            faces.as_mut_ptr(),
            faces.len(),
            positions.as_mut_ptr(),
            positions.len(),
            counts.as_mut_ptr(),
            counts.len(),
        )
    }
}

pub fn down(
    list: &[u32],
    shadings: u32,
    faces: &mut [u32],
    positions: &mut [u32],
    counts: &mut [u32],
) -> u32 {
    unsafe {
        oysterfold_down(
            list.as_ptr(),
            list.len(),
            shadings,
            faces.as_mut_ptr(),
            faces.len(),
            positions.as_mut_ptr(),
            positions.len(),
            counts.as_mut_ptr(),
            counts.len(),
        )
    }
}

/// A refusal keeps the steps granted before it, in tables and counts, and the result tells their number.
pub fn steps(
    list: &[u32],
    shadings: u32,
    requests: &[Request],
    faces: &mut [u32],
    positions: &mut [u32],
    counts: &mut [u32],
    result: &mut [u64],
) -> u32 {
    unsafe {
        oysterfold_steps(
            list.as_ptr(),
            list.len(),
            shadings,
            requests.as_ptr(),
            requests.len(),
            faces.as_mut_ptr(),
            faces.len(),
            positions.as_mut_ptr(),
            positions.len(),
            counts.as_mut_ptr(),
            counts.len(),
            result.as_mut_ptr(),
            result.len(),
        )
    }
}

//! The library's C functions, each behind a safe Rust function on slices. A fixed array is one pointer, a slice is a
//! pointer and then a length. Nothing is asked of a caller: what the library cannot take it refuses.

#[link(name = "tenahvar", kind = "static")]
extern "C" {
    fn tenahvar_layout(sizes: *const u8, n: usize, m: usize, strides: *mut u32, filling: *mut u32, scale: *mut f32) -> u32;
    fn tenahvar_total(sizes: *const u8, n: usize, m: usize, total: *mut u64) -> u32;
    fn tenahvar_lookup(
        sizes: *const u8, n: usize, m: usize, table: *const f32, table_len: usize, inputs: *const f32, inputs_len: usize,
        answer: *mut f32, answer_len: usize,
    ) -> u32;
    fn tenahvar_lookup_skipping(
        sizes: *const u8, n: usize, m: usize, table: *const f32, table_len: usize, inputs: *const f32, inputs_len: usize,
        answer: *mut f32, answer_len: usize, reads: *mut u32,
    ) -> u32;
    fn tenahvar_node(
        sizes: *const u8, n: usize, m: usize, table: *const f32, table_len: usize, coordinates: *const usize,
        coordinates_len: usize, offset: *mut usize,
    ) -> u32;
    fn tenahvar_read_clut(
        element: *const u8, element_len: usize, n: usize, m: usize, sizes: *mut u8, entries: *mut f32, entries_len: usize,
    ) -> u32;
    fn tenahvar_read_units(
        data: *const u8, data_len: usize, precision: usize, count: usize, entries: *mut f32, entries_len: usize,
    ) -> u32;
    fn tenahvar_cut_slab(
        sizes: *const u8, n: usize, m: usize, table: *const f32, table_len: usize, j: usize, k: usize, slab: *mut f32,
        slab_len: usize,
    ) -> u32;
    fn tenahvar_file_length(sizes: *const u8, n: usize, m: usize, length: *mut u64) -> u32;
    fn tenahvar_write_table(
        sizes: *const u8, n: usize, m: usize, table: *const f32, table_len: usize, file: *mut u8, file_len: usize,
    ) -> u32;
    fn tenahvar_file_layout(file: *const u8, file_len: usize, sizes: *mut u8, n: *mut usize, m: *mut usize) -> u32;
    fn tenahvar_read_table(
        file: *const u8, file_len: usize, sizes: *mut u8, n: *mut usize, m: *mut usize, entries: *mut f32, entries_len: usize,
    ) -> u32;
    fn tenahvar_create_ranged_256(g: u8, x: *mut usize, x_n: *mut usize, w: *mut f32) -> u32;
    fn tenahvar_pyramidal(
        x: *const usize, x_n: *const usize, w: *const f32, g: u8, m: usize, cube: *const f32, cube_len: usize,
        answer: *mut f32, answer_len: usize,
    ) -> u32;
    fn tenahvar_prismatic(
        x: *const usize, x_n: *const usize, w: *const f32, g: u8, m: usize, cube: *const f32, cube_len: usize,
        answer: *mut f32, answer_len: usize,
    ) -> u32;
    fn tenahvar_trilinear(
        x: *const usize, x_n: *const usize, w: *const f32, g: u8, m: usize, cube: *const f32, cube_len: usize,
        answer: *mut f32, answer_len: usize,
    ) -> u32;
}

pub fn layout(
    sizes: &[u8; 16], n: usize, m: usize, strides: &mut [u32; 16], filling: &mut [u32; 16], scale: &mut [f32; 16],
) -> u32 {
    unsafe { tenahvar_layout(sizes.as_ptr(), n, m, strides.as_mut_ptr(), filling.as_mut_ptr(), scale.as_mut_ptr()) }
}

pub fn total(sizes: &[u8; 16], n: usize, m: usize, total: &mut u64) -> u32 {
    unsafe { tenahvar_total(sizes.as_ptr(), n, m, total) }
}

#[inline]
pub fn lookup(sizes: &[u8; 16], n: usize, m: usize, table: &[f32], inputs: &[f32], answer: &mut [f32]) -> u32 {
    unsafe {
        tenahvar_lookup(
            sizes.as_ptr(), n, m, table.as_ptr(), table.len(), inputs.as_ptr(), inputs.len(), answer.as_mut_ptr(), answer.len(),
        )
    }
}

#[inline]
pub fn lookup_skipping(
    sizes: &[u8; 16], n: usize, m: usize, table: &[f32], inputs: &[f32], answer: &mut [f32], reads: &mut u32,
) -> u32 {
    unsafe {
        tenahvar_lookup_skipping(
            sizes.as_ptr(), n, m, table.as_ptr(), table.len(), inputs.as_ptr(), inputs.len(), answer.as_mut_ptr(), answer.len(), reads,
        )
    }
}

pub fn node(sizes: &[u8; 16], n: usize, m: usize, table: &[f32], coordinates: &[usize], offset: &mut usize) -> u32 {
    unsafe {
        tenahvar_node(
            sizes.as_ptr(), n, m, table.as_ptr(), table.len(), coordinates.as_ptr(), coordinates.len(), offset,
        )
    }
}

pub fn read_clut(element: &[u8], n: usize, m: usize, sizes: &mut [u8; 16], entries: &mut [f32]) -> u32 {
    unsafe {
        tenahvar_read_clut(element.as_ptr(), element.len(), n, m, sizes.as_mut_ptr(), entries.as_mut_ptr(), entries.len())
    }
}

pub fn read_units(data: &[u8], precision: usize, count: usize, entries: &mut [f32]) -> u32 {
    unsafe { tenahvar_read_units(data.as_ptr(), data.len(), precision, count, entries.as_mut_ptr(), entries.len()) }
}

pub fn cut_slab(sizes: &[u8; 16], n: usize, m: usize, table: &[f32], j: usize, k: usize, slab: &mut [f32]) -> u32 {
    unsafe { tenahvar_cut_slab(sizes.as_ptr(), n, m, table.as_ptr(), table.len(), j, k, slab.as_mut_ptr(), slab.len()) }
}

pub fn file_length(sizes: &[u8; 16], n: usize, m: usize, length: &mut u64) -> u32 {
    unsafe { tenahvar_file_length(sizes.as_ptr(), n, m, length) }
}

pub fn write_table(sizes: &[u8; 16], n: usize, m: usize, table: &[f32], file: &mut [u8]) -> u32 {
    unsafe { tenahvar_write_table(sizes.as_ptr(), n, m, table.as_ptr(), table.len(), file.as_mut_ptr(), file.len()) }
}

pub fn file_layout(file: &[u8], sizes: &mut [u8; 16], n: &mut usize, m: &mut usize) -> u32 {
    unsafe { tenahvar_file_layout(file.as_ptr(), file.len(), sizes.as_mut_ptr(), n, m) }
}

pub fn read_table(file: &[u8], sizes: &mut [u8; 16], n: &mut usize, m: &mut usize, entries: &mut [f32]) -> u32 {
    unsafe { tenahvar_read_table(file.as_ptr(), file.len(), sizes.as_mut_ptr(), n, m, entries.as_mut_ptr(), entries.len()) }
}

pub fn create_ranged_256(g: u8, x: &mut [usize; 256], x_n: &mut [usize; 256], w: &mut [f32; 256]) -> u32 {
    unsafe { tenahvar_create_ranged_256(g, x.as_mut_ptr(), x_n.as_mut_ptr(), w.as_mut_ptr()) }
}

/// One of the three cube methods.
#[derive(Clone, Copy, Debug, PartialEq)]
pub enum Method {
    Pyramidal,
    Prismatic,
    Trilinear,
}

pub fn cube(
    method: Method, x: &[usize; 3], x_n: &[usize; 3], w: &[f32; 3], g: u8, m: usize, cube: &[f32], answer: &mut [f32],
) -> u32 {
    let call = match method {
        Method::Pyramidal => tenahvar_pyramidal,
        Method::Prismatic => tenahvar_prismatic,
        Method::Trilinear => tenahvar_trilinear,
    };
    unsafe {
        call(
            x.as_ptr(), x_n.as_ptr(), w.as_ptr(), g, m, cube.as_ptr(), cube.len(), answer.as_mut_ptr(), answer.len(),
        )
    }
}

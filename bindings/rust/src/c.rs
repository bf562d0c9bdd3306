//! The declarations of include/tenahvar.h.

pub type CubeMethod = unsafe extern "C" fn(
    x: &[usize; 3],
    x_n: &[usize; 3],
    w: &[f32; 3],
    g: u8,
    m: usize,
    cube: *const f32,
    cube_length: usize,
    answer: *mut f32,
    answer_length: usize,
) -> u32;

extern "C" {
    pub fn tenahvar_layout(
        sizes: &[u8; 16],
        n: usize,
        m: usize,
        grid_strides: &mut [u32; 16],
        grid_filling_size: &mut [u32; 16],
        grid_scale: &mut [f32; 16],
    ) -> u32;

    pub fn tenahvar_total(sizes: &[u8; 16], n: usize, m: usize, total: &mut u64) -> u32;

    pub fn tenahvar_lookup(
        sizes: &[u8; 16],
        n: usize,
        m: usize,
        table: *const f32,
        table_length: usize,
        inputs: *const f32,
        inputs_length: usize,
        answer: *mut f32,
        answer_length: usize,
    ) -> u32;

    pub fn tenahvar_lookup_skipping(
        sizes: &[u8; 16],
        n: usize,
        m: usize,
        table: *const f32,
        table_length: usize,
        inputs: *const f32,
        inputs_length: usize,
        answer: *mut f32,
        answer_length: usize,
        reads: &mut u32,
    ) -> u32;

    pub fn tenahvar_node(
        sizes: &[u8; 16],
        n: usize,
        m: usize,
        table: *const f32,
        table_length: usize,
        coordinates: *const usize,
        coordinates_length: usize,
        offset: &mut usize,
    ) -> u32;

    pub fn tenahvar_read_clut(
        element: *const u8,
        element_length: usize,
        n: usize,
        m: usize,
        sizes: &mut [u8; 16],
        entries: *mut f32,
        entries_length: usize,
    ) -> u32;

    pub fn tenahvar_read_units(
        data: *const u8,
        data_length: usize,
        precision: usize,
        count: usize,
        entries: *mut f32,
        entries_length: usize,
    ) -> u32;

    pub fn tenahvar_cut_slab(
        sizes: &[u8; 16],
        n: usize,
        m: usize,
        table: *const f32,
        table_length: usize,
        j: usize,
        k: usize,
        slab: *mut f32,
        slab_length: usize,
    ) -> u32;

    pub fn tenahvar_file_length(sizes: &[u8; 16], n: usize, m: usize, length: &mut u64) -> u32;

    // The library takes an entry as a word of 32 bits: the same memory, so that no NaN is touched. As in the header it is lent as f32.
    pub fn tenahvar_write_table(
        sizes: &[u8; 16],
        n: usize,
        m: usize,
        table: *const f32,
        table_length: usize,
        file: *mut u8,
        file_length: usize,
    ) -> u32;

    pub fn tenahvar_file_layout(
        file: *const u8,
        file_length: usize,
        sizes: &mut [u8; 16],
        n: &mut usize,
        m: &mut usize,
    ) -> u32;

    pub fn tenahvar_read_table(
        file: *const u8,
        file_length: usize,
        sizes: &mut [u8; 16],
        n: &mut usize,
        m: &mut usize,
        entries: *mut f32,
        entries_length: usize,
    ) -> u32;

    pub fn tenahvar_create_ranged_256(
        g: u8,
        x: &mut [usize; 256],
        x_n: &mut [usize; 256],
        w: &mut [f32; 256],
    ) -> u32;
}

macro_rules! cube_methods {
    ($($name:ident)*) => {
        extern "C" {
            $(pub fn $name(
                x: &[usize; 3],
                x_n: &[usize; 3],
                w: &[f32; 3],
                g: u8,
                m: usize,
                cube: *const f32,
                cube_length: usize,
                answer: *mut f32,
                answer_length: usize,
            ) -> u32;)*
        }
    };
}
cube_methods!(tenahvar_pyramidal tenahvar_prismatic tenahvar_trilinear);

//! The declarations of `include/kaugrenna.h`, which documents them, name by
//! name and argument by argument.

extern "C" {
    /// Cuts every closed edge and mends every wire.
    pub fn kaugrenna_split_closed_edges(
        vertex_numbers: *mut u32,
        vertex_numbers_len: usize,
        vertex_floats: *mut f64,
        vertex_floats_len: usize,
        edge_numbers: *mut u32,
        edge_numbers_len: usize,
        edge_floats: *mut f64,
        edge_floats_len: usize,
        uses: *mut u32,
        uses_len: usize,
        lengths: *mut u32,
        lengths_len: usize,
        vertices: usize,
        edges: usize,
        wires: usize,
        k: u32,
        vertices_out: *mut usize,
        edges_out: *mut usize,
        uses_out: *mut usize,
    ) -> i32;

    /// The parameter at which the pass cuts a curve from t0 to t1.
    pub fn kaugrenna_cut_parameter(t0: f64, t1: f64, k: u32, t_out: *mut f64) -> i32;

    /// Cuts one edge and mends every wire.
    pub fn kaugrenna_cut_edge_by_intersections(
        vertex_numbers: *mut u32,
        vertex_numbers_len: usize,
        vertex_floats: *mut f64,
        vertex_floats_len: usize,
        edge_numbers: *mut u32,
        edge_numbers_len: usize,
        edge_floats: *mut f64,
        edge_floats_len: usize,
        uses: *mut u32,
        uses_len: usize,
        lengths: *mut u32,
        lengths_len: usize,
        cuts: *const f64,
        cuts_len: usize,
        vertices: usize,
        edges: usize,
        wires: usize,
        edge: u32,
        cut_count: usize,
        vertices_out: *mut usize,
        edges_out: *mut usize,
        uses_out: *mut usize,
    ) -> i32;

    /// Cuts one edge at several points and mends every wire.
    pub fn kaugrenna_cut_edge_at_points(
        vertex_numbers: *mut u32,
        vertex_numbers_len: usize,
        vertex_floats: *mut f64,
        vertex_floats_len: usize,
        edge_numbers: *mut u32,
        edge_numbers_len: usize,
        edge_floats: *mut f64,
        edge_floats_len: usize,
        uses: *mut u32,
        uses_len: usize,
        lengths: *mut u32,
        lengths_len: usize,
        cuts: *const f64,
        cuts_len: usize,
        vertices: usize,
        edges: usize,
        wires: usize,
        edge: u32,
        cut_count: usize,
        vertices_out: *mut usize,
        edges_out: *mut usize,
        uses_out: *mut usize,
    ) -> i32;

    /// u, moved by whole periods to where it is nearest to u0.
    pub fn kaugrenna_get_mindiff(
        u: f64,
        u0: f64,
        period_kind: u32,
        period: f64,
        out: *mut f64,
    ) -> i32;

    /// Of the periodic copies of q the one nearest to p.
    pub fn kaugrenna_nearest_copy(
        pu: f64,
        pv: f64,
        qu: f64,
        qv: f64,
        u_kind: u32,
        u_period: f64,
        v_kind: u32,
        v_period: f64,
        u_out: *mut f64,
        v_out: *mut f64,
    ) -> i32;

    /// The kind of a wire.
    pub fn kaugrenna_boundary_type(
        u0: f64,
        v0: f64,
        u1: f64,
        v1: f64,
        area: f64,
        kind_out: *mut u32,
    ) -> i32;

    /// The open and the closed wires.
    pub fn kaugrenna_sort_wires(
        ends: *const f64,
        ends_len: usize,
        wires: usize,
        open: *mut u32,
        open_len: usize,
        closed: *mut u32,
        closed_len: usize,
        closed_out: *mut usize,
    ) -> i32;

    /// Nearest ends of two stretches.
    pub fn kaugrenna_nearest_correction(
        vertex_numbers: *const u32,
        vertex_numbers_len: usize,
        vertex_floats: *const f64,
        vertex_floats_len: usize,
        edge_numbers: *const u32,
        edge_numbers_len: usize,
        edge_floats: *const f64,
        edge_floats_len: usize,
        first: *const u32,
        first_len: usize,
        second: *const u32,
        second_len: usize,
        vertices: usize,
        edges: usize,
        first_count: usize,
        second_count: usize,
        v0: u32,
        v0_out: *mut u32,
        v1_out: *mut u32,
    ) -> i32;

    /// The first wire that can be divided.
    pub fn kaugrenna_find_non_simple_wire_divisor(
        vertex_numbers: *const u32,
        vertex_numbers_len: usize,
        vertex_floats: *const f64,
        vertex_floats_len: usize,
        edge_numbers: *const u32,
        edge_numbers_len: usize,
        edge_floats: *const f64,
        edge_floats_len: usize,
        uses: *const u32,
        uses_len: usize,
        lengths: *const u32,
        lengths_len: usize,
        vertices: usize,
        edges: usize,
        wires: usize,
        v0_out: *mut u32,
        v1_out: *mut u32,
    ) -> i32;

    /// Rebuilds wires along a divisor.
    pub fn kaugrenna_split_boundaries_by_divisor(
        edge_numbers: *mut u32,
        edge_numbers_len: usize,
        edge_floats: *mut f64,
        edge_floats_len: usize,
        face_uses: *const u32,
        face_uses_len: usize,
        face_lengths: *const u32,
        face_lengths_len: usize,
        rebuilt_uses: *const u32,
        rebuilt_uses_len: usize,
        rebuilt_lengths: *const u32,
        rebuilt_lengths_len: usize,
        divisor: *const u32,
        divisor_len: usize,
        points: *const f64,
        points_len: usize,
        uses: *mut u32,
        uses_len: usize,
        lengths: *mut u32,
        lengths_len: usize,
        vertices: usize,
        edges: usize,
        face_wires: usize,
        rebuilt_wires: usize,
        divisor_count: usize,
        surface: u32,
        wires_out: *mut usize,
        uses_out: *mut usize,
        edges_out: *mut usize,
    ) -> i32;

    /// Joins two open wires with a new one.
    pub fn kaugrenna_connect_open_boundaries(
        edge_numbers: *const u32,
        edge_numbers_len: usize,
        edge_floats: *const f64,
        edge_floats_len: usize,
        first: *const u32,
        first_len: usize,
        second: *const u32,
        second_len: usize,
        uses: *mut u32,
        uses_len: usize,
        lengths: *mut u32,
        lengths_len: usize,
        vertices: usize,
        edges: usize,
        first_count: usize,
        second_count: usize,
        wires: usize,
        v0: u32,
        v1: u32,
        uses_out: *mut usize,
    ) -> i32;
}

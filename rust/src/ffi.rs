//! The archive's exports, as `include/koshirga.h` declares them, and the crate's only unsafe code.
//! Each returns for every argument, so each is `safe` to call but those that take slices: pointer
//! and length have to be a slice's. These are called below, by functions that take the slices.
//!
//! What is called for one direction or number is `#[inline]`, here and in the files beside: as calls
//! of their own these would hand arguments and answers through memory once more.

use crate::{
    Grid, GridMut, LevelRecord, Mesh, MeshMut, Scratch, Settings, Taken, Vector3, Weights,
};

#[repr(C)]
pub struct ConversionAnswer {
    pub whole: i64,
    pub how: u32,
}

#[repr(C)]
pub struct BuildAnswer {
    pub refusal: u32,
    pub side: u32,
    pub index: usize,
    pub held: u32,
}

#[repr(C)]
pub struct FaceAnswer {
    pub refusal: u32,
    pub face: u32,
}

#[repr(C)]
pub struct AnalyticAnswer {
    pub refusal: u32,
    pub triple: [u32; 3],
    pub weights: Weights,
}

#[repr(C)]
pub struct VertexAnswer {
    pub refusal: u32,
    pub id: u32,
}

#[repr(C)]
pub struct WalkAnswer {
    pub refusal: u32,
    pub entries_read: u32,
    pub index: usize,
}

#[repr(C)]
pub struct IslandsAnswer {
    pub refusal: u32,
    pub islands: u32,
    pub entries_read: u32,
    pub index: usize,
}

#[repr(C)]
pub struct StepsAnswer {
    pub refusal: u32,
    pub steps: u32,
    pub entries_read: u32,
    pub index: usize,
}

#[repr(C)]
pub struct WithinAnswer {
    pub refusal: u32,
    pub vertices: u32,
    pub index: usize,
}

#[repr(C)]
pub struct VerdictAnswer {
    pub refusal: u32,
    pub index: usize,
}

#[repr(C)]
pub struct NearestAnswer {
    pub refusal: u32,
    pub id: u32,
    pub candidates: u32,
    pub distance: f64,
    pub index: usize,
}

#[repr(C)]
pub struct LocatedAnswer {
    pub refusal: u32,
    pub triple: [u32; 3],
    pub weights: Weights,
    pub least: f64,
    pub index: usize,
}

#[repr(C)]
pub struct PackAnswer {
    pub refusal: u32,
    pub level: LevelRecord,
    pub index: usize,
}

unsafe extern "C" {
    pub safe fn koshirga_total_cmp(x: u64, y: u64) -> i32;
    pub safe fn koshirga_rank(x: f64) -> u64;
    pub safe fn koshirga_minimum_number(x: f64, y: f64) -> f64;
    pub safe fn koshirga_floor(x: f64) -> f64;
    pub safe fn koshirga_ceil(x: f64) -> f64;
    pub safe fn koshirga_to_i64(x: f64) -> ConversionAnswer;
    pub safe fn koshirga_to_f32(x: f64) -> f32;
    pub safe fn koshirga_mul_add(a: f64, b: f64, c: f64) -> f64;
    pub safe fn koshirga_sqrt(x: f64) -> f64;
    pub safe fn koshirga_sqrt_by_digits(x: f64) -> f64;

    pub safe fn koshirga_dot(a: Vector3, b: Vector3) -> f64;
    pub safe fn koshirga_cross(a: Vector3, b: Vector3) -> Vector3;
    pub safe fn koshirga_minus(a: Vector3, b: Vector3) -> Vector3;
    pub safe fn koshirga_plus(a: Vector3, b: Vector3) -> Vector3;
    pub safe fn koshirga_scale(v: Vector3, factor: f64) -> Vector3;
    pub safe fn koshirga_divide(v: Vector3, divisor: f64) -> Vector3;
    pub safe fn koshirga_norm_squared(v: Vector3) -> f64;
    pub safe fn koshirga_norm(v: Vector3) -> f64;
    pub safe fn koshirga_normalize(v: Vector3) -> Vector3;
    pub safe fn koshirga_direction(v: Vector3) -> u32;

    pub safe fn koshirga_projected_barycentric(
        p: Vector3,
        a: Vector3,
        b: Vector3,
        c: Vector3,
    ) -> Weights;
    pub safe fn koshirga_least_weight(weights: Weights) -> f64;

    fn koshirga_walk(
        positions: *const f64,
        positions_length: usize,
        starts: *const u32,
        starts_length: usize,
        entries: *const u16,
        entries_length: usize,
        order: *mut u32,
        order_length: usize,
        queue: *mut u32,
        queue_length: usize,
    ) -> WalkAnswer;
    fn koshirga_walk_islands(
        positions: *const f64,
        positions_length: usize,
        starts: *const u32,
        starts_length: usize,
        entries: *const u16,
        entries_length: usize,
        order: *mut u32,
        order_length: usize,
        queue: *mut u32,
        queue_length: usize,
        island_starts: *mut u32,
        island_starts_length: usize,
    ) -> IslandsAnswer;
    fn koshirga_steps_between(
        positions: *const f64,
        positions_length: usize,
        starts: *const u32,
        starts_length: usize,
        entries: *const u16,
        entries_length: usize,
        from: u32,
        to: u32,
        order: *mut u32,
        order_length: usize,
        queue: *mut u32,
        queue_length: usize,
    ) -> StepsAnswer;
    fn koshirga_vertices_within(
        positions: *const f64,
        positions_length: usize,
        starts: *const u32,
        starts_length: usize,
        entries: *const u16,
        entries_length: usize,
        vertex: u32,
        steps: usize,
        order: *mut u32,
        order_length: usize,
        list: *mut u32,
        list_length: usize,
    ) -> WithinAnswer;
    fn koshirga_renumber(
        positions: *mut f64,
        positions_length: usize,
        starts: *mut u32,
        starts_length: usize,
        entries: *mut u16,
        entries_length: usize,
        lists_ascend: *mut bool,
        values: *mut f64,
        values_length: usize,
        permutation: *const u32,
        permutation_length: usize,
        entries_per_vertex: usize,
        sources: *mut u32,
        sources_length: usize,
        old_starts: *mut u32,
        old_starts_length: usize,
        old_entries: *mut u16,
        old_entries_length: usize,
        done: *mut u8,
        done_length: usize,
        held: *mut f64,
        held_length: usize,
    ) -> VerdictAnswer;
    fn koshirga_mark_ascending(
        positions: *const f64,
        positions_length: usize,
        starts: *const u32,
        starts_length: usize,
        entries: *const u16,
        entries_length: usize,
        lists_ascend: *mut bool,
    ) -> VerdictAnswer;

    fn koshirga_lattice(
        frequency: u32,
        positions: *mut f64,
        positions_length: usize,
        starts: *mut u32,
        starts_length: usize,
        entries: *mut u16,
        entries_length: usize,
        lists_ascend: *mut bool,
        ids: *mut u16,
        ids_length: usize,
    ) -> u32;
    fn koshirga_build_grid(
        positions: *const f64,
        positions_length: usize,
        starts: *const u32,
        starts_length: usize,
        entries: *const u16,
        entries_length: usize,
        cell_starts: *mut u32,
        cell_starts_length: usize,
        cell_ids: *mut u16,
        cell_ids_length: usize,
        triangle_starts: *mut u32,
        triangle_starts_length: usize,
        triples: *mut u16,
        triples_length: usize,
        factor: f64,
        margin: u32,
    ) -> BuildAnswer;

    pub safe fn koshirga_choose_face(
        i: bool,
        j: bool,
        k: bool,
        first: bool,
        second: bool,
        third: bool,
    ) -> FaceAnswer;
    fn koshirga_analytic_locate(
        frequency: u32,
        ids: *const u16,
        ids_length: usize,
        direction: Vector3,
    ) -> AnalyticAnswer;
    fn koshirga_analytic_nearest(
        frequency: u32,
        ids: *const u16,
        ids_length: usize,
        direction: Vector3,
    ) -> VertexAnswer;

    fn koshirga_grid_nearest(
        positions: *const f64,
        positions_length: usize,
        factor: f64,
        margin: u32,
        side: u32,
        cell_starts: *const u32,
        cell_starts_length: usize,
        cell_ids: *const u16,
        cell_ids_length: usize,
        triangle_starts: *const u32,
        triangle_starts_length: usize,
        direction: Vector3,
    ) -> NearestAnswer;
    fn koshirga_grid_locate(
        positions: *const f64,
        positions_length: usize,
        factor: f64,
        margin: u32,
        side: u32,
        cell_starts: *const u32,
        cell_starts_length: usize,
        cell_ids: *const u16,
        cell_ids_length: usize,
        triangle_starts: *const u32,
        triangle_starts_length: usize,
        triples: *const u16,
        triples_length: usize,
        direction: Vector3,
    ) -> LocatedAnswer;

    fn koshirga_pack(
        positions: *const f64,
        positions_length: usize,
        factor: f64,
        margin: u32,
        side: u32,
        cell_starts: *const u32,
        cell_starts_length: usize,
        cell_ids: *const u16,
        cell_ids_length: usize,
        triangle_starts: *const u32,
        triangle_starts_length: usize,
        triples: *const u16,
        triples_length: usize,
        words: *mut u32,
        words_length: usize,
        words_taken: usize,
        floats: *mut f32,
        floats_length: usize,
        floats_taken: usize,
    ) -> PackAnswer;
}

pub fn walk(mesh: Mesh, order: &mut [u32], queue: &mut [u32]) -> WalkAnswer {
    let Mesh {
        positions,
        starts,
        entries,
    } = mesh;
    // Safe: pointers and lengths are of slices, and those written are lent alone.
    unsafe {
        koshirga_walk(
            positions.as_ptr(),
            positions.len(),
            starts.as_ptr(),
            starts.len(),
            entries.as_ptr(),
            entries.len(),
            order.as_mut_ptr(),
            order.len(),
            queue.as_mut_ptr(),
            queue.len(),
        )
    }
}

pub fn walk_islands(
    mesh: Mesh,
    order: &mut [u32],
    queue: &mut [u32],
    island_starts: &mut [u32],
) -> IslandsAnswer {
    let Mesh {
        positions,
        starts,
        entries,
    } = mesh;
    // Safe: pointers and lengths are of slices, and those written are lent alone.
    unsafe {
        koshirga_walk_islands(
            positions.as_ptr(),
            positions.len(),
            starts.as_ptr(),
            starts.len(),
            entries.as_ptr(),
            entries.len(),
            order.as_mut_ptr(),
            order.len(),
            queue.as_mut_ptr(),
            queue.len(),
            island_starts.as_mut_ptr(),
            island_starts.len(),
        )
    }
}

pub fn steps_between(
    mesh: Mesh,
    from: u32,
    to: u32,
    order: &mut [u32],
    queue: &mut [u32],
) -> StepsAnswer {
    let Mesh {
        positions,
        starts,
        entries,
    } = mesh;
    // Safe: pointers and lengths are of slices, and those written are lent alone.
    unsafe {
        koshirga_steps_between(
            positions.as_ptr(),
            positions.len(),
            starts.as_ptr(),
            starts.len(),
            entries.as_ptr(),
            entries.len(),
            from,
            to,
            order.as_mut_ptr(),
            order.len(),
            queue.as_mut_ptr(),
            queue.len(),
        )
    }
}

pub fn vertices_within(
    mesh: Mesh,
    vertex: u32,
    steps: usize,
    order: &mut [u32],
    list: &mut [u32],
) -> WithinAnswer {
    let Mesh {
        positions,
        starts,
        entries,
    } = mesh;
    // Safe: pointers and lengths are of slices, and those written are lent alone.
    unsafe {
        koshirga_vertices_within(
            positions.as_ptr(),
            positions.len(),
            starts.as_ptr(),
            starts.len(),
            entries.as_ptr(),
            entries.len(),
            vertex,
            steps,
            order.as_mut_ptr(),
            order.len(),
            list.as_mut_ptr(),
            list.len(),
        )
    }
}

pub fn renumber(
    mesh: MeshMut,
    values: &mut [f64],
    permutation: &[u32],
    entries_per_vertex: usize,
    scratch: Scratch,
) -> VerdictAnswer {
    let MeshMut {
        positions,
        starts,
        entries,
        lists_ascend,
    } = mesh;
    let Scratch {
        sources,
        old_starts,
        old_entries,
        done,
        held,
    } = scratch;
    // Safe: pointers and lengths are of slices, and those written and the mark are lent alone.
    unsafe {
        koshirga_renumber(
            positions.as_mut_ptr(),
            positions.len(),
            starts.as_mut_ptr(),
            starts.len(),
            entries.as_mut_ptr(),
            entries.len(),
            lists_ascend,
            values.as_mut_ptr(),
            values.len(),
            permutation.as_ptr(),
            permutation.len(),
            entries_per_vertex,
            sources.as_mut_ptr(),
            sources.len(),
            old_starts.as_mut_ptr(),
            old_starts.len(),
            old_entries.as_mut_ptr(),
            old_entries.len(),
            done.as_mut_ptr(),
            done.len(),
            held.as_mut_ptr(),
            held.len(),
        )
    }
}

pub fn mark_ascending(mesh: Mesh, lists_ascend: &mut bool) -> VerdictAnswer {
    let Mesh {
        positions,
        starts,
        entries,
    } = mesh;
    // Safe: pointers and lengths are of slices, and the mark is lent alone.
    unsafe {
        koshirga_mark_ascending(
            positions.as_ptr(),
            positions.len(),
            starts.as_ptr(),
            starts.len(),
            entries.as_ptr(),
            entries.len(),
            lists_ascend,
        )
    }
}

pub fn lattice(frequency: u32, mesh: MeshMut, ids: &mut [u16]) -> u32 {
    let MeshMut {
        positions,
        starts,
        entries,
        lists_ascend,
    } = mesh;
    // Safe: pointers and lengths are of slices, and each and the mark are lent alone.
    unsafe {
        koshirga_lattice(
            frequency,
            positions.as_mut_ptr(),
            positions.len(),
            starts.as_mut_ptr(),
            starts.len(),
            entries.as_mut_ptr(),
            entries.len(),
            lists_ascend,
            ids.as_mut_ptr(),
            ids.len(),
        )
    }
}

pub fn build_grid(mesh: Mesh, settings: Settings, grid: GridMut) -> BuildAnswer {
    let Mesh {
        positions,
        starts,
        entries,
    } = mesh;
    let GridMut {
        cell_starts,
        cell_ids,
        triangle_starts,
        triples,
    } = grid;
    // Safe: pointers and lengths are of slices, and those written are lent alone.
    unsafe {
        koshirga_build_grid(
            positions.as_ptr(),
            positions.len(),
            starts.as_ptr(),
            starts.len(),
            entries.as_ptr(),
            entries.len(),
            cell_starts.as_mut_ptr(),
            cell_starts.len(),
            cell_ids.as_mut_ptr(),
            cell_ids.len(),
            triangle_starts.as_mut_ptr(),
            triangle_starts.len(),
            triples.as_mut_ptr(),
            triples.len(),
            settings.factor,
            settings.margin,
        )
    }
}

#[inline]
pub fn analytic_locate(frequency: u32, ids: &[u16], direction: Vector3) -> AnalyticAnswer {
    // Safe: pointer and length are a slice's.
    unsafe { koshirga_analytic_locate(frequency, ids.as_ptr(), ids.len(), direction) }
}

#[inline]
pub fn analytic_nearest(frequency: u32, ids: &[u16], direction: Vector3) -> VertexAnswer {
    // Safe: pointer and length are a slice's.
    unsafe { koshirga_analytic_nearest(frequency, ids.as_ptr(), ids.len(), direction) }
}

#[inline]
pub fn grid_nearest(grid: Grid, direction: Vector3) -> NearestAnswer {
    // Safe: pointers and lengths are of slices.
    unsafe {
        koshirga_grid_nearest(
            grid.positions.as_ptr(),
            grid.positions.len(),
            grid.settings.factor,
            grid.settings.margin,
            grid.side,
            grid.cell_starts.as_ptr(),
            grid.cell_starts.len(),
            grid.cell_ids.as_ptr(),
            grid.cell_ids.len(),
            grid.triangle_starts.as_ptr(),
            grid.triangle_starts.len(),
            direction,
        )
    }
}

#[inline]
pub fn grid_locate(grid: Grid, direction: Vector3) -> LocatedAnswer {
    // Safe: pointers and lengths are of slices.
    unsafe {
        koshirga_grid_locate(
            grid.positions.as_ptr(),
            grid.positions.len(),
            grid.settings.factor,
            grid.settings.margin,
            grid.side,
            grid.cell_starts.as_ptr(),
            grid.cell_starts.len(),
            grid.cell_ids.as_ptr(),
            grid.cell_ids.len(),
            grid.triangle_starts.as_ptr(),
            grid.triangle_starts.len(),
            grid.triples.as_ptr(),
            grid.triples.len(),
            direction,
        )
    }
}

pub fn pack(grid: Grid, words: &mut [u32], floats: &mut [f32], taken: Taken) -> PackAnswer {
    // Safe: pointers and lengths are of slices, and those written are lent alone.
    unsafe {
        koshirga_pack(
            grid.positions.as_ptr(),
            grid.positions.len(),
            grid.settings.factor,
            grid.settings.margin,
            grid.side,
            grid.cell_starts.as_ptr(),
            grid.cell_starts.len(),
            grid.cell_ids.as_ptr(),
            grid.cell_ids.len(),
            grid.triangle_starts.as_ptr(),
            grid.triangle_starts.len(),
            grid.triples.as_ptr(),
            grid.triples.len(),
            words.as_mut_ptr(),
            words.len(),
            taken.words,
            floats.as_mut_ptr(),
            floats.len(),
            taken.floats,
        )
    }
}

#[cfg(test)]
pub mod tests {
    use super::*;
    use std::collections::BTreeSet;
    use std::mem::{offset_of, size_of};

    /// The names `koshirga_...` that stand before an opening bracket, with `before` in front.
    fn functions(text: &'static str, before: &str) -> BTreeSet<&'static str> {
        let is_part = |c: char| c.is_ascii_alphanumeric() || c == '_';
        text.match_indices("koshirga_")
            .filter_map(|(at, _)| {
                let rest = &text[at..];
                let end = rest.find(|c| !is_part(c))?;
                let called = rest[end..].starts_with('(') && text[..at].ends_with(before);
                called.then_some(&rest[..end])
            })
            .collect()
    }

    /// The header declares each export in a line that begins with its type. Its inline functions
    /// begin with `static`, and others are named only in comments and in these functions' bodies.
    #[test]
    fn every_export_is_declared_here() {
        let header = include_str!("../../include/koshirga.h");
        let declared: BTreeSet<&str> = header
            .lines()
            .filter(|line| !line.starts_with([' ', '/', '#', '}']))
            .filter(|line| !line.starts_with("static inline "))
            .flat_map(|line| functions(line, " "))
            .collect();
        let source = include_str!("ffi.rs");
        assert_eq!(declared, functions(source, "fn "));
        assert!(declared.contains("koshirga_grid_locate"), "{declared:?}");
    }

    /// The arguments between the brackets that follow `head`, each on one line.
    fn arguments<'a>(text: &'a str, head: &str) -> impl Iterator<Item = String> + 'a {
        let (_, rest) = text.split_once(head).unwrap();
        let (arguments, _) = rest.split_once(')').unwrap();
        let each = arguments.trim().trim_end_matches(',').split(',');
        each.map(|argument| argument.split_whitespace().collect::<Vec<_>>().join(" "))
    }

    /// An argument of the header as it is written here.
    fn in_rust(argument: &str) -> String {
        let (kind, name) = argument.rsplit_once(' ').unwrap();
        let kind_alone = kind.trim_start_matches("const ");
        let ours = match kind_alone {
            "bool" => "bool",
            "double" => "f64",
            "float" => "f32",
            "koshirga_vector3" => "Vector3",
            "koshirga_weights" => "Weights",
            "size_t" => "usize",
            "uint8_t" => "u8",
            "uint16_t" => "u16",
            "uint32_t" => "u32",
            "uint64_t" => "u64",
            other => panic!("{other}"),
        };
        match name.strip_prefix('*') {
            None => format!("{name}: {ours}"),
            Some(name) if kind == kind_alone => format!("{name}: *mut {ours}"),
            Some(name) => format!("{name}: *const {ours}"),
        }
    }

    /// Names alone are known to the linker: that arguments are the same, and in the same order, is
    /// seen here.
    #[test]
    fn exports_have_the_arguments_of_the_header() {
        let header = include_str!("../../include/koshirga.h");
        let source = include_str!("ffi.rs");
        for name in functions(source, "fn ") {
            let declaration = header
                .match_indices(name)
                .map(|(at, _)| at)
                .find(|&at| {
                    let (before, rest) = header.split_at(at + name.len());
                    let line = before.rsplit('\n').next().unwrap();
                    rest.starts_with('(') && line.starts_with(|c: char| c.is_ascii_lowercase())
                })
                .unwrap();
            let declared = arguments(&header[declaration..], "(");
            let ours = arguments(source, &format!("fn {name}("));
            let declared: Vec<String> = declared.map(|argument| in_rust(&argument)).collect();
            assert_eq!(declared, ours.collect::<Vec<_>>(), "{name}");
        }
    }

    /// The size of the header's `koshirga_..._answer`, and the place of one of its fields, as the
    /// System V convention lays them out.
    fn header_layout(answer: &str, field: &str) -> (usize, Option<usize>) {
        let header = include_str!("../../include/koshirga.h");
        let head = format!("\ntypedef struct koshirga_{answer}_answer {{\n");
        let (_, rest) = header.split_once(&head).unwrap();
        let (fields, _) = rest.split_once("\n}").unwrap();
        let (mut end, mut align, mut place) = (0_usize, 1, None);
        for line in fields.lines() {
            let (declared, _) = line.split_once(';').unwrap();
            let (kind, names) = declared.trim().split_once(' ').unwrap();
            let (width, own_align) = match kind {
                "uint32_t" => (4, 4),
                "double" | "int64_t" | "size_t" => (8, 8),
                "koshirga_level_record" => (28, 4),
                other => panic!("{other}"),
            };
            align = own_align.max(align);
            for name in names.split(", ") {
                let start = end.next_multiple_of(own_align);
                if name == field {
                    place = Some(start);
                }
                end = start + width;
            }
        }
        (end.next_multiple_of(align), place)
    }

    #[test]
    fn answers_are_laid_out_as_in_the_header() {
        macro_rules! same {
            ($answer:literal, $ours:ident, $($field:ident),+) => {$(
                let ours = (size_of::<$ours>(), Some(offset_of!($ours, $field)));
                assert_eq!(header_layout($answer, stringify!($field)), ours);
            )+};
        }
        same!("conversion", ConversionAnswer, whole, how);
        same!("walk", WalkAnswer, refusal, entries_read, index);
        same!("islands", IslandsAnswer, islands, entries_read, index);
        same!("steps", StepsAnswer, refusal, steps, entries_read, index);
        same!("within", WithinAnswer, refusal, vertices, index);
        same!("verdict", VerdictAnswer, refusal, index);
        same!("build", BuildAnswer, refusal, side, index, held);
        same!("nearest", NearestAnswer, id, candidates, distance, index);
        same!("located", LocatedAnswer, refusal, least, index);
        same!("face", FaceAnswer, refusal, face);
        same!("vertex", VertexAnswer, refusal, id);
        same!("analytic", AnalyticAnswer, refusal);
        same!("pack", PackAnswer, refusal, level, index);
    }

    /// The fields of the header's level record, in their order, are those of ours.
    #[test]
    fn level_record_is_laid_out_as_in_the_header() {
        let header = include_str!("../../include/koshirga.h");
        let (_, rest) = header
            .split_once("\ntypedef struct koshirga_level_record {\n")
            .unwrap();
        let (fields, _) = rest.split_once("\n} koshirga_level_record;\n").unwrap();
        let declared = fields.lines().flat_map(|line| {
            let (declared, _) = line.split_once(';').unwrap();
            let names = declared.trim().strip_prefix("uint32_t ").unwrap();
            names.split(", ")
        });
        macro_rules! places {
            ($($field:ident),+) => {[$((stringify!($field), offset_of!(LevelRecord, $field))),+]};
        }
        #[rustfmt::skip]
        let ours = places!(
            vertices, side, cell_starts, cell_ids, triangle_starts, triples, positions
        );
        let declared: Vec<_> = declared.zip((0..).step_by(4)).collect();
        assert_eq!(declared, ours);
        assert_eq!(size_of::<LevelRecord>(), 28);
    }

    /// An initialiser of the slices alone leaves the mark of the header's mesh false.
    #[test]
    fn mark_is_last_in_the_headers_mesh() {
        let header = include_str!("../../include/koshirga.h");
        let (_, rest) = header
            .split_once("\ntypedef struct koshirga_mesh {\n")
            .unwrap();
        let (fields, _) = rest.split_once("\n} koshirga_mesh;\n").unwrap();
        let last = fields.lines().last().map(str::trim);
        assert_eq!(last, Some("bool lists_ascend;"));
    }

    /// The constants of the header's `enum koshirga_...`, each `KOSHIRGA_NAME = NUMBER` in a line
    /// of its own.
    pub fn constants(name: &str) -> impl Iterator<Item = (&'static str, u32)> {
        let header = include_str!("../../include/koshirga.h");
        let head = format!("\nenum koshirga_{name} {{\n");
        let (_, rest) = header.split_once(&head).unwrap();
        let (lines, _) = rest.split_once("\n}").unwrap();
        let named = |line: &'static str| line.trim().strip_prefix("KOSHIRGA_")?.split_once(" = ");
        let lines = lines.lines().filter_map(named);
        lines.map(|(name, value)| (name, value.trim_end_matches(',').parse().unwrap()))
    }

    /// What the header defines as `KOSHIRGA_...`, as it is written there.
    fn header_values(name: &str) -> Vec<&'static str> {
        let define = format!("#define KOSHIRGA_{name} ");
        include_str!("../../include/koshirga.h")
            .lines()
            .filter_map(|line| line.strip_prefix(define.as_str()))
            .collect()
    }

    /// The header's version is this crate's.
    #[test]
    fn versions_are_equal() {
        for (part, ours) in [
            ("MAJOR", env!("CARGO_PKG_VERSION_MAJOR")),
            ("MINOR", env!("CARGO_PKG_VERSION_MINOR")),
            ("PATCH", env!("CARGO_PKG_VERSION_PATCH")),
        ] {
            assert_eq!(header_values(&format!("VERSION_{part}")), [ours], "{part}");
        }
    }

    /// The header's usual pair is the default here.
    #[test]
    fn usual_pair_is_the_headers() {
        let Settings { factor, margin } = Settings::default();
        assert_eq!(header_values("USUAL_FACTOR"), [factor.to_string()]);
        assert_eq!(header_values("USUAL_MARGIN"), [margin.to_string()]);
    }
}

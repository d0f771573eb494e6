//! Prints the bits of the twelve points that the source's own `icosahedron_points` works out
//! here, x y z in a row, in the form of `src/points.rs`.

fn main() {
    for point in icotable_oracle::computed_icosahedron_points() {
        let [x, y, z] = [point.x, point.y, point.z].map(f64::to_bits);
        println!("    [{x:#018x}, {y:#018x}, {z:#018x}],");
    }
}

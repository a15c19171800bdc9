include!("../assemble.rs");

fn main() {
    assemble(&[
        Part {
            module: "grid",
            file: "libs/poulpy-blas/src/layouts/grid.rs",
            appended: "",
        },
        Part {
            module: "maps",
            file: "libs/poulpy-blas/src/layouts/maps.rs",
            appended: "",
        },
    ]);
}

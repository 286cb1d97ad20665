//! Reads the published Rust and writes, to OUT_DIR, the modules of this crate.
//!
//! - aabb.rs, triangle.rs, builder.rs and cost.rs are compiled where they
//!   stand, unchanged (`#[path]`).
//! - scene.rs leans on nalgebra, so it is not compiled whole: the function
//!   `intersect_blas` is cut out of it, and only `pub` is put before it.
//! - Five changed texts stand beside them, each made by substitutions that
//!   fail where their needle is not found exactly once: see below.

use std::path::{Path, PathBuf};
use std::{env, fs, process};

#[path = "cut.rs"]
mod cut;
use cut::{change, cut};

fn main() {
    if let Err(why) = run() {
        eprintln!("oracle: {why}");
        process::exit(1);
    }
}

/// PIGEONMAST_RUST_SRC, read from the project's root if it is relative; by
/// default ../shared/docs/src beside the project.
fn folder() -> Result<PathBuf, String> {
    println!("cargo:rerun-if-env-changed=PIGEONMAST_RUST_SRC");
    let package = env::var("CARGO_MANIFEST_DIR").map_err(|e| e.to_string())?;
    let root = Path::new(&package).join("../..");
    let given = env::var("PIGEONMAST_RUST_SRC").unwrap_or_else(|_| "../shared/docs/src".into());
    let src = root.join(given).join("crates/optics-bvh/src");
    src.canonicalize().map_err(|e| {
        format!(
            "the published Rust is not at {} ({e}): set PIGEONMAST_RUST_SRC to the folder that has crates/optics-bvh/src",
            src.display()
        )
    })
}

fn run() -> Result<(), String> {
    let src = folder()?;
    let read = |file: &str| {
        let path = src.join(file);
        println!("cargo:rerun-if-changed={}", path.display());
        fs::read_to_string(&path).map_err(|e| format!("{}: {e}", path.display()))
    };
    let triangle = read("triangle.rs")?;
    let builder = read("builder.rs")?;
    let scene = read("scene.rs")?;
    let cost = read("cost.rs")?;

    let out = PathBuf::from(env::var("OUT_DIR").map_err(|e| e.to_string())?);
    let write = |file: &str, text: &str| {
        fs::write(out.join(file), text).map_err(|e| format!("{file}: {e}"))
    };
    let mut modules = String::new();
    for name in ["aabb", "triangle", "builder", "cost"] {
        let path = src.join(format!("{name}.rs"));
        modules += &format!("#[path = {path:?}]\npub mod {name};\n");
    }
    // A module's path is taken from the file that names it: both in OUT_DIR.
    modules += "#[path = \"ordered.rs\"]\npub mod ordered;\n";
    write("modules.rs", &modules)?;
    write("spotted.rs", &spotted(&triangle)?)?;
    write("ordered.rs", &ordered(&builder)?)?;
    write("intersect_blas.rs", &visible(&scene)?)?;
    let counted = counted(&scene)?;
    write("counted.rs", &counted)?;
    write("ruled.rs", &ruled(&counted)?)?;
    write("cost_loop.rs", &cost_loop(&cost)?)
}

/// The triangle test of triangle.rs, which also tells u and v as it has them
/// (rule T8): the record that it makes is handed over in a `Spot`.
fn spotted(triangle: &str) -> Result<String, String> {
    let file = "triangle.rs";
    let test = "    pub fn intersect(";
    let mut text = cut(triangle, test, "    }", file)?.to_string();
    for (needle, by) in [
        (test, "    pub fn intersect_spotted("),
        ("-> Option<HitRecord> {", "-> Option<Spot> {"),
        ("Some(HitRecord {", "Some(Spot { u, v, hit: HitRecord {"),
        ("surface_index,\n        })", "surface_index,\n        } })"),
    ] {
        text = change(&text, needle, by, file)?;
    }
    Ok(format!("impl Triangle {{\n{text}}}\n"))
}

/// builder.rs with rule C5's order where the Rust leaves it open: the whole
/// range ascending by centroid, equal ones by lower triangle number. It also
/// tells that it came there.
fn ordered(builder: &str) -> Result<String, String> {
    let file = "builder.rs";
    let text = change(
        builder,
        ".select_nth_unstable_by(left_count, |&a, &b| {",
        ".sort_unstable_by(|&a, &b| {",
        file,
    )?;
    let compare = "triangles[a].centroid()[axis].total_cmp(&triangles[b].centroid()[axis])";
    let text = change(&text, compare, &format!("{compare}.then(a.cmp(&b))"), file)?;
    let half = "left_count = count / 2;";
    change(&text, half, &format!("crate::fallback_ran(); {half}"), file)
}

const BLAS: &str = "fn intersect_blas(";

/// `intersect_blas` as it stands, made visible.
fn visible(scene: &str) -> Result<String, String> {
    Ok(format!("pub {}", cut(scene, BLAS, "}", "scene.rs")?))
}

/// `intersect_blas` with the two counts of rules W3 and W4, the triangle's
/// number for `surface_index`, and u and v. cost.rs counts at the same two
/// places.
fn counted(scene: &str) -> Result<String, String> {
    let mut text = cut(scene, BLAS, "}", "scene.rs")?.to_string();
    let test = "if node.aabb.intersect_ray(ray).is_none() {";
    let entry = "let tri_idx = indices[(node.left_or_first + i) as usize];";
    for (needle, by) in [
        (BLAS, "pub fn intersect_blas_counted(".to_string()),
        ("    instance_idx: usize,\n", String::new()),
        ("-> Option<HitRecord> {", "-> (Option<Spot>, u64, u64) {\n    let (mut box_tests, mut triangle_tests) = (0_u64, 0_u64);".into()),
        ("closest_hit: Option<HitRecord>", "closest_hit: Option<Spot>".into()),
        (test, format!("box_tests += 1;\n        {test}")),
        (entry, format!("triangle_tests += 1;\n                {entry}")),
        (".intersect(ray, instance_idx)", ".intersect_spotted(ray, tri_idx)".into()),
        ("\n    closest_hit\n}", "\n    (closest_hit, box_tests, triangle_tests)\n}".into()),
    ] {
        text = change(&text, needle, &by, "scene.rs")?;
    }
    Ok(text)
}

/// The counting text with rule E1 at numerically equal t, the lowest
/// triangle number wins; it also tells how many more are met at the hit's t.
fn ruled(counted: &str) -> Result<String, String> {
    let mut text = counted.to_string();
    let told = "(Option<Spot>, u64, u64";
    let end = "(closest_hit, box_tests, triangle_tests";
    let test = "if hit.t < closest_t {";
    let lower = "closest_hit.as_ref().is_some_and(|h| tri_idx < h.surface_index)";
    for (needle, by) in [
        (
            "intersect_blas_counted(",
            "intersect_blas_ruled(".to_string(),
        ),
        (
            &format!("{told}) {{"),
            format!("{told}, u64) {{\n    let mut tied = 0_u64;"),
        ),
        (&format!("{end})"), format!("{end}, tied)")),
        (
            test,
            format!(
                "if hit.t == closest_t {{ tied += 1; }} else {test} tied = 0; }}
                    if hit.t < closest_t || (hit.t == closest_t && {lower}) {{"
            ),
        ),
    ] {
        text = change(&text, needle, &by, "scene.rs")?;
    }
    Ok(text)
}

/// The inner loop of cost.rs, cut out, with its one figure kept apart as the
/// two counts. What it names (`blas_nodes`, `tris`, `tri_indices`, `local_ray`,
/// `inst_idx`) are the parameters of the function around it.
fn cost_loop(cost: &str) -> Result<String, String> {
    let file = "cost.rs";
    let first = "                            let mut b_stack = [0_u32; 64];";
    let last = "                            }";
    let text = cut(cost, first, last, file)?;
    let add = "cost = cost.saturating_add(1);";
    let on_box = format!("{add}\n                                    if b_node");
    let on_triangle = format!("{add}\n                                            let tri_idx");
    let text = change(text, &on_box, "box_tests += 1; if b_node", file)?;
    let text = change(
        &text,
        &on_triangle,
        "triangle_tests += 1; let tri_idx",
        file,
    )?;
    if text.contains("cost") {
        return Err(format!("{file}: the inner loop counts at a third place"));
    }
    Ok(format!(
        "pub fn cost_loop(local_ray: Ray, blas_nodes: &[BvhNode], tris: &[Triangle], tri_indices: &[usize], inst_idx: usize) -> (u64, u64) {{\n    let (mut box_tests, mut triangle_tests) = (0_u64, 0_u64);\n{text}    (box_tests, triangle_tests)\n}}\n"
    ))
}

//! The header names the rows of each call in their order; the data sheet's table is where the order is laid down.

use std::fs;
use std::path::Path;

fn file(name: &str) -> String {
    let root = Path::new(env!("CARGO_MANIFEST_DIR")).join("..");
    fs::read_to_string(root.join(name)).unwrap_or_else(|error| panic!("{name}: {error}"))
}

/// The whole numbers of a text, without what stands in brackets.
fn numbers(text: &str) -> Vec<u32> {
    let mut depth = 0;
    let plain: String = text
        .chars()
        .map(|c| {
            depth += i32::from(c == '(') - i32::from(c == ')');
            if depth == 0 && c.is_ascii_digit() {
                c
            } else {
                ' '
            }
        })
        .collect();
    plain
        .split_whitespace()
        .map(|word| word.parse().unwrap())
        .collect()
}

/// The rows of a call by the table "Order of the checks"; "the same" stands for the line above.
fn of_the_sheet(call: &str) -> Vec<u32> {
    let sheet = file("docs/DATASHEET.md");
    let table = sheet
        .split("Order of the checks:\n\n")
        .nth(1)
        .expect("the table");
    let mut above = Vec::new();
    for line in table.lines().take_while(|line| line.starts_with('|')) {
        let mut cells = line.split('|').skip(1).map(str::trim);
        let (name, rows) = (cells.next().unwrap(), cells.next().unwrap());
        let mut found = if rows.starts_with("the same") {
            above
        } else {
            Vec::new()
        };
        found.extend(numbers(rows));
        if name == call {
            return found;
        }
        above = found;
    }
    panic!("the sheet has no line for {call}");
}

/// The rows that the comment of a function names: from its last "Rows" to what isn't a number, a comma or a remark.
fn of_the_header(function: &str) -> Vec<u32> {
    let header = file("include/koshirga.h");
    let end = header
        .find(&format!(" {function}("))
        .unwrap_or_else(|| panic!("{function}"));
    let comment = &header[header[..end].rfind("/*").unwrap()..end];
    let comment = comment[..comment.find("*/").unwrap()].replace("\n *", " ");
    let rows = comment.split("Rows ").last().unwrap();
    let rows = rows.split([';', '.']).next().unwrap();
    let rows = rows
        .replace("then in the cell", "")
        .replace("then at the nearest vertex", "");
    let rows = rows
        .split(" change ")
        .next()
        .unwrap()
        .split(" leave ")
        .next()
        .unwrap();
    match rows.strip_prefix("as above") {
        Some(further) => {
            let mut rows = of_the_header(above(function));
            rows.extend(numbers(further));
            rows
        }
        None => numbers(rows),
    }
}

fn above(function: &str) -> &'static str {
    match function {
        "koshirga_analytic_nearest" => "koshirga_analytic_locate",
        "koshirga_grid_locate" => "koshirga_grid_nearest",
        _ => panic!("{function}: rows as above which call?"),
    }
}

#[test]
fn the_header_has_the_sheets_order() {
    for (function, call) in [
        ("koshirga_lattice", "lattice"),
        ("koshirga_walk", "walk"),
        ("koshirga_walk_islands", "walk over all islands"),
        ("koshirga_steps_between", "steps between two vertices"),
        ("koshirga_vertices_within", "vertices within so many steps"),
        ("koshirga_renumber", "renumbering"),
        ("koshirga_mark_ascending", "reading call"),
        ("koshirga_build_grid", "grid builder"),
        ("koshirga_grid_nearest", "nearest grid query"),
        ("koshirga_grid_locate", "grid location"),
        ("koshirga_pack", "packing"),
        ("koshirga_analytic_locate", "analytic queries"),
        ("koshirga_analytic_nearest", "analytic queries"),
    ] {
        let sheet = of_the_sheet(call);
        assert!(!sheet.is_empty(), "{call}");
        assert_eq!(of_the_header(function), sheet, "{function}");
    }
}

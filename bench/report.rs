//! Reads the times that the drivers printed and prints the tables.

mod times;

use times::Row;

/// The two settings of the Rust's allocator: as it comes, and keeping what is freed.
const USUAL: &str = "usual";
const KEEPS: &str = "keeps";

/// A head, and what stands under it.
type Column<'a> = (&'a str, Box<dyn Fn(&Row) -> String + 'a>);

fn column<'a>(head: &'a str, cell: impl Fn(&Row) -> String + 'a) -> Column<'a> {
    (head, Box::new(cell))
}

fn name(head: &str) -> Column<'_> {
    column(head, |row| row.name.clone())
}

fn lexemes(head: &str) -> Column<'_> {
    column(head, |row| row.lexemes.to_string())
}

/// Ours over another side's speed.
fn ratio<'a>(head: &'a str, setting: &'a str, other: &'a str) -> Column<'a> {
    column(head, move |row| {
        let ratio = row.ratio(setting, other);
        let digits = if ratio < 0.1 { 4 } else { 2 };
        format!("{ratio:.digits$}")
    })
}

fn speed<'a>(head: &'a str, setting: &'a str, side: &'a str) -> Column<'a> {
    column(head, move |row| format!("{:.0}", row.speed(setting, side)))
}

/// Seconds to a byte, over those of another row.
fn relative<'a>(head: &'a str, setting: &'a str, side: &'a str, base: &'a Row) -> Column<'a> {
    let of_base = base.speed(setting, side);
    column(head, move |row| {
        format!("{:.2}", of_base / row.speed(setting, side))
    })
}

fn print_table(title: &str, rows: &[&Row], columns: &[Column]) {
    if rows.is_empty() {
        return;
    }
    println!("\n{title}\n");
    print_line(columns.iter().map(|(head, _)| head.to_string()));
    println!("|{}", "---|".repeat(columns.len()));
    for row in rows {
        print_line(columns.iter().map(|(_, cell)| cell(row)));
    }
}

fn print_line(cells: impl Iterator<Item = String>) {
    let cells: Vec<String> = cells.collect();
    println!("| {} |", cells.join(" | "));
}

fn of_table<'a>(rows: &'a [Row], table: &str) -> Vec<&'a Row> {
    rows.iter().filter(|row| row.table == table).collect()
}

fn lexing(rows: &[Row], table: &str, title: &str) {
    let columns = [
        name("text"),
        ratio("ratio", USUAL, "rust"),
        ratio("ratio, allocator keeps", KEEPS, "rust"),
        speed("ours, MB/s", USUAL, "ours"),
        speed("the Rust, MB/s", USUAL, "rust"),
        speed("ours, allocator keeps", KEEPS, "ours"),
        speed("the Rust, allocator keeps", KEEPS, "rust"),
        speed("a copy, MB/s", USUAL, "copy"),
        lexemes("lexemes"),
    ];
    print_table(title, &of_table(rows, table), &columns);
}

fn check(rows: &[Row]) {
    let columns = [
        name("text"),
        ratio("ratio", USUAL, "rust"),
        speed("ours, MB/s", USUAL, "ours"),
        speed("the Rust, MB/s", USUAL, "rust"),
        speed("a copy, MB/s", USUAL, "copy"),
    ];
    let title = "The UTF-8 check alone, `rcl_utf8` beside `from_utf8`.";
    print_table(title, &of_table(rows, "check"), &columns);
}

/// A call that the Rust has no counterpart for.
fn calls(rows: &[Row], table: &str, title: &str) {
    let columns = [
        name("text"),
        ratio("over our lexing of it", USUAL, "lexing"),
        ratio("over a copy of it", USUAL, "copy"),
        speed("ours, MB/s", USUAL, "ours"),
        speed("our lexing, MB/s", USUAL, "lexing"),
        speed("a copy, MB/s", USUAL, "copy"),
    ];
    print_table(title, &of_table(rows, table), &columns);
}

fn growth(rows: &[Row], table: &str, title: &str) {
    let rows = of_table(rows, table);
    let Some(base) = rows.iter().find(|row| row.name == "1 MiB") else {
        return;
    };
    let columns = [
        name("size"),
        ratio("ratio", USUAL, "rust"),
        ratio("ratio, allocator keeps", KEEPS, "rust"),
        relative("ours, s/byte over 1 MiB's", USUAL, "ours", base),
        relative("the Rust, s/byte over 1 MiB's", USUAL, "rust", base),
        speed("ours, MB/s", USUAL, "ours"),
        speed("the Rust, MB/s", USUAL, "rust"),
        speed("ours, allocator keeps", KEEPS, "ours"),
        speed("the Rust, allocator keeps", KEEPS, "rust"),
        speed("a copy, MB/s", USUAL, "copy"),
    ];
    print_table(title, &rows, &columns);
}

fn main() {
    let printed = std::io::read_to_string(std::io::stdin()).expect("The times are text.");
    let rows = times::read(&printed);
    lexing(
        &rows,
        "lexing",
        "Lexing, `rcl_lex` beside `from_utf8` and `lex`. Texts of 4 MiB; the spaces are 1 MiB.",
    );
    lexing(
        &rows,
        "runs",
        "The same, with a run of whitespace of so many bytes behind each lexeme. Texts of 4 MiB.",
    );
    check(&rows);
    calls(
        &rows,
        "tidy",
        "The tidy writer, `rcl_tidy`, its lexing included.",
    );
    calls(
        &rows,
        "values",
        "Values: `rcl_value` at every QuoteOpen of the text's list; the lexing is not included.",
    );
    calls(
        &rows,
        "walker",
        "The walker: `rcl_walker_open`, then `rcl_walker_step` to the end, Spaces included.",
    );
    growth(&rows, "growth, move table", "Growth, move table.");
    growth(&rows, "growth, mixed notes", "Growth, mixed UTF-8 notes.");
}

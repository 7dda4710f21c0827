//! Tables: a title, a line of headings, and a line for each thing measured, printed as it comes.

/// Widths in characters.
const NAME: usize = 28;
const COLUMN: usize = 18;

/// What is compared, the unit, and the contestants, ours first.
pub fn heading(title: &str, contestants: &[&str]) {
    println!("\n{title}");
    line("", contestants.iter().map(|name| name.to_string()));
}

/// A line of a table: its cells to the right.
pub fn line(name: &str, cells: impl IntoIterator<Item = String>) {
    let cells: String = cells.into_iter().map(|cell| format!("{cell:>COLUMN$}")).collect();
    println!("  {name:<NAME$}{cells}");
}

/// Three digits or more.
pub fn figure(number: f64) -> String {
    let decimals = match number {
        n if n < 1.0 => 3,
        n if n < 10.0 => 2,
        _ => 1,
    };
    format!("{number:.decimals$}")
}

/// The figures of the contestants; behind those of the others, ours divided by them.
pub fn row(name: &str, figures: &[f64]) {
    let others = figures[1..].iter().map(|other| format!("{} ({:.2})", figure(*other), figures[0] / other));
    line(name, [figure(figures[0])].into_iter().chain(others));
}

/// The same for counted instructions, if they could be counted.
pub fn counted_row(name: &str, figures: Option<&[f64]>) {
    match figures {
        Some(figures) => row(name, figures),
        None => line(name, ["not counted: there is no valgrind here".to_string()]),
    }
}

/// What is asked for and what came of it, if it could be counted.
pub fn judge(asked: &str, most: f64, found: Option<f64>) {
    let verdict = match found {
        Some(found) if found <= most => format!("{found:.2}, met"),
        Some(found) => format!("{found:.2}, missed"),
        None => "not counted".to_string(),
    };
    println!("{asked} at most {most}: {verdict}");
}

/// With a comma between thousands.
pub fn thousands(number: usize) -> String {
    match number {
        n if n < 1_000 => n.to_string(),
        n => format!("{},{:03}", thousands(n / 1_000), n % 1_000),
    }
}

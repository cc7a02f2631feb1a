//! The tables that have a line for every size, and how the times grow.

use benchmark::size::Size;
use benchmark::stream::megabits;

/// What a line has behind the columns that all these tables share.
#[derive(Clone, Copy)]
pub enum More {
    Nothing,
    /// OpenJPEG has no such kernel.
    NoKernel,
    NotInstalled,
    /// OpenJPEG's best time.
    Outside(f64),
    /// The bits that were written or read.
    Bits(usize),
}

impl More {
    fn heads(self) -> &'static str {
        match self {
            More::Nothing => "",
            More::Bits(_) => " Mbit/s |",
            _ => " OpenJPEG | library : OpenJPEG |",
        }
    }

    fn cells(self, library: f64) -> String {
        match self {
            More::Nothing => String::new(),
            More::NoKernel => " | |".to_string(),
            More::NotInstalled => " not installed | |".to_string(),
            More::Outside(time) => format!(" {time:.3} | {:.2} |", library / time),
            More::Bits(bits) => format!(" {:.0} |", megabits(bits, library)),
        }
    }
}

/// One line of a table: the best times in milliseconds.
pub struct Row {
    name: String,
    size: Size,
    copy: f64,
    library: f64,
    reference: f64,
    more: More,
}

pub fn row(name: String, size: Size, times: [f64; 3], more: More) -> Row {
    let [copy, library, reference] = times;
    Row {
        name,
        size,
        copy,
        library,
        reference,
        more,
    }
}

fn print_line(row: &Row) {
    let ratio = row.library / row.reference;
    let over_copy = row.library / row.copy;
    print!("| {} | {} ", row.name, row.size);
    print!(
        "| {:.3} | {:.3} | {:.3} ",
        row.library, row.reference, row.copy
    );
    print!("| {ratio:.2} | {over_copy:.1} |");
    println!("{}", row.more.cells(row.library));
}

/// `first` names the columns before the size. All rows have the same columns.
pub fn print_table(title: &str, first: &str, rows: &[Row]) {
    let more = rows.first().map_or("", |row| row.more.heads());
    println!("## {title}\n");
    print!("| {first} | size | library | reference | copy ");
    println!("| library : reference | library : copy |{more}");
    let columns = first.matches('|').count() + 6 + more.matches('|').count();
    println!("|:--|{}", "---:|".repeat(columns));
    for row in rows {
        print_line(row);
    }
    println!();
}

/// Nanoseconds a sample at each size, and how the time grows from the smallest
/// to the largest.
pub fn print_growth(sizes: &[Size], tables: &[(&str, &[Row])]) {
    let (small, large) = (sizes[0], sizes[sizes.len() - 1]);
    let samples = large.samples() / small.samples();
    println!("## Growth\n");
    println!(
        "Library, nanoseconds a sample. From {small} to {large} the samples are \
         {samples} times as many; the last column is the time's factor over that, \
         1 if the time grows as the samples do.\n"
    );
    let heads: Vec<String> = sizes.iter().map(Size::to_string).collect();
    let heads = heads.join(" | ");
    println!("| work | {heads} | time's factor | over {samples} |");
    println!("|:--|{}", "---:|".repeat(sizes.len() + 2));
    for (name, rows) in tables {
        for first in rows.iter().filter(|row| row.size == small) {
            let time = |size| {
                let same = |row: &&Row| row.name == first.name && row.size == size;
                rows.iter().find(same).expect("every size").library
            };
            let each = |&size: &Size| format!("{:.2}", time(size) * 1e6 / size.samples() as f64);
            let each: Vec<String> = sizes.iter().map(each).collect();
            let factor = time(large) / time(small);
            print!("| {name}, {} ", first.name.replace(" | ", ", levels "));
            print!("| {} ", each.join(" | "));
            println!("| {factor:.1} | {:.2} |", factor / samples as f64);
        }
    }
    println!();
}

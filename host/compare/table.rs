//! Counts in tables. A table holds only cells that can be met, so a cell with 0 is a gap in what was compared.

pub struct Line {
    pub label: String,
    pub cells: Vec<(String, u64)>,
}

pub struct Table {
    pub title: String,
    pub lines: Vec<Line>,
}

const WIDTH: usize = 150;

impl Table {
    pub fn new(title: &str) -> Table {
        Table { title: title.to_string(), lines: Vec::new() }
    }

    pub fn line(&mut self, label: impl Into<String>, cells: impl IntoIterator<Item = (String, u64)>) {
        let cells: Vec<_> = cells.into_iter().collect();
        if !cells.is_empty() {
            self.lines.push(Line { label: label.into(), cells });
        }
    }

    pub fn print(&self) {
        println!("\n{}", self.title);
        let wide = self.lines.iter().map(|line| line.label.len()).max().unwrap_or(0);
        for line in &self.lines {
            let mut text = format!("  {:wide$} ", line.label);
            for (name, count) in &line.cells {
                let cell = if name.is_empty() { format!(" {count:>8}") } else { format!("  {name}:{count}") };
                if text.len() + cell.len() > WIDTH {
                    println!("{text}");
                    text = format!("  {:wide$} ", "");
                }
                text += &cell;
            }
            println!("{text}");
        }
    }

    /// The cells that were never met.
    pub fn gaps(&self) -> Vec<String> {
        let of_line = |line: &Line| -> Vec<String> {
            let empty = line.cells.iter().filter(|cell| cell.1 == 0);
            empty.map(|cell| format!("{}: {} {}", self.title, line.label, cell.0)).collect()
        };
        self.lines.iter().flat_map(of_line).collect()
    }
}

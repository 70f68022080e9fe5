//! What was measured, and its tables.

/// The places of what all are held against, the crate or Rust's `parse`, and of us.
pub const BASIS: usize = 0;
pub const OURS: usize = 1;

/// What was measured of a workload: nanoseconds per number, for each printer or reader.
pub struct Measured {
    pub name: &'static str,
    pub nanoseconds: Vec<f64>,
}

impl Measured {
    pub fn ratio(&self, which: usize) -> f64 {
        self.nanoseconds[which] / self.nanoseconds[BASIS]
    }

    /// One's time, with its ratio to the basis.
    fn cell(&self, which: usize) -> String {
        let nanoseconds = self.nanoseconds[which];
        match which {
            BASIS => format!("{nanoseconds:.1}"),
            _ => format!("{nanoseconds:.1} ({:.2})", self.ratio(which)),
        }
    }
}

/// What was measured of printing, or of reading.
pub struct Results {
    /// What the basis is called in a sentence.
    pub basis: &'static str,
    /// The names of the printers or readers.
    pub names: Vec<&'static str>,
    /// So many of them are compared; an earlier archive of ours has the place after them.
    pub compared: usize,
    pub all: Vec<Measured>,
}

impl Results {
    pub fn print_table(&self) {
        print!("{:30}", "");
        self.names.iter().for_each(|name| print!(" {name:>14}"));
        println!();
        for measured in &self.all {
            print!("{:30}", measured.name);
            (0..self.names.len()).for_each(|which| print!(" {:>14}", measured.cell(which)));
            println!();
        }
    }

    /// Our worst ratio, and the workload that has it.
    pub fn worst(&self) -> String {
        let worst = self.all.iter().max_by(|a, b| a.ratio(OURS).total_cmp(&b.ratio(OURS))).expect("there are workloads");
        format!("worst ratio to {}: {:.2} ({})", self.basis, worst.ratio(OURS), worst.name)
    }

    /// The table in Markdown, without an earlier archive.
    pub fn table(&self) -> String {
        let columns: Vec<_> = (0..self.compared).map(|which| (self.names[which], which)).collect();
        self.markdown(&columns)
    }

    /// The table in Markdown of an earlier archive and ours, where an earlier one was timed.
    pub fn before_and_after(&self) -> Option<String> {
        let columns = [(self.names[BASIS], BASIS), ("before", self.compared), ("after", OURS)];
        (self.names.len() > self.compared).then(|| self.markdown(&columns))
    }

    /// A table in Markdown of some of them, with a name for each.
    fn markdown(&self, columns: &[(&str, usize)]) -> String {
        let row = |first: &str, cells: Vec<String>| format!("| {first} | {} |\n", cells.join(" | "));
        let mut table = row("", columns.iter().map(|(name, _)| name.to_string()).collect());
        table += &row("---", vec!["---:".to_string(); columns.len()]);
        for measured in &self.all {
            table += &row(measured.name, columns.iter().map(|(_, which)| measured.cell(*which)).collect());
        }
        table
    }
}

//! The table of what was measured.

pub struct Table {
    lines: Vec<String>,
}

fn shown(nanoseconds: f64) -> String {
    match nanoseconds {
        n if n >= 1e6 => format!("{:.1} ms", n / 1e6),
        n if n >= 1e4 => format!("{:.1} µs", n / 1e3),
        n => format!("{n:.0} ns"),
    }
}

impl Table {
    pub fn new() -> Table {
        let name = std::fs::read_to_string("/proc/cpuinfo").ok();
        let name = name.as_deref().and_then(|text| text.lines().find_map(|line| line.strip_prefix("model name\t: ")));
        Table { lines: vec![format!("Processor: {}", name.unwrap_or("not known"))] }
    }

    pub fn head(&mut self, name: &str, bytes: usize, commits: u32) {
        self.lines.push(format!("\n{commits} commits in {name}, {bytes} bytes\n\n| Task | Crate | Port | Ratio |\n|---|---|---|---|"));
    }

    /// A task that was done `times` times in one run.
    pub fn row(&mut self, task: &str, times: u32, (original, port): (f64, f64)) {
        let n = f64::from(times);
        self.lines.push(format!("| {task} | {} | {} | {:.2} |", shown(original / n), shown(port / n), port / original));
        eprintln!("{}", self.lines.last().unwrap());
    }

    pub fn print(&self) {
        println!("{}", self.lines.join("\n"));
    }
}

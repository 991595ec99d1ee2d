//! A grid of cells, printed as columns or as a Markdown table.

pub struct Grid {
    pub head: Vec<String>,
    pub lines: Vec<Vec<String>>,
}

/// Words stand to the left, numbers to the right.
fn has_words(head: &str) -> bool {
    head == "call" || head == "where"
}

impl Grid {
    pub fn print(&self, markdown: bool) {
        if markdown {
            self.markdown();
        } else {
            self.columns();
        }
    }

    fn markdown(&self) {
        let rule = |head: &String| if has_words(head) { "---" } else { "---:" }.to_string();
        let rule = self.head.iter().map(rule).collect();
        for line in [&self.head, &rule].into_iter().chain(&self.lines) {
            println!("| {} |", line.join(" | "));
        }
    }

    fn columns(&self) {
        let all = || [&self.head].into_iter().chain(&self.lines);
        let width = |i: usize| all().map(|line| line[i].chars().count()).max().unwrap_or(0);
        let widths: Vec<usize> = (0..self.head.len()).map(width).collect();
        for line in all() {
            let cells = line.iter().zip(&self.head).zip(&widths).map(|((cell, head), &width)| {
                if has_words(head) {
                    format!("{cell:<width$}")
                } else {
                    format!("{cell:>width$}")
                }
            });
            println!("{}", cells.collect::<Vec<_>>().join("  ").trim_end());
        }
    }
}

//! A table as plain text for the terminal and as markdown.

pub struct Table {
    pub title: String,
    head: Vec<String>,
    rows: Vec<Vec<String>>,
    /// So many columns at the front are words, the others numbers.
    words: usize,
    pub notes: Vec<String>,
}

impl Table {
    pub fn new(title: &str, words: usize, head: &[&str]) -> Table {
        Table {
            title: title.to_string(),
            head: head.iter().map(|cell| cell.to_string()).collect(),
            rows: Vec::new(),
            words,
            notes: Vec::new(),
        }
    }

    pub fn row(&mut self, cells: Vec<String>) {
        assert_eq!(cells.len(), self.head.len(), "{}", self.title);
        self.rows.push(cells);
    }

    fn width(&self, column: usize) -> usize {
        let cells = self.rows.iter().chain([&self.head]);
        let widths = cells.map(|row| row[column].chars().count());
        widths.max().unwrap_or(0)
    }

    fn plain_row(&self, row: &[String]) -> String {
        let mut line = String::new();
        for (column, cell) in row.iter().enumerate() {
            let width = self.width(column);
            line += &match column < self.words {
                true => format!("{cell:<width$}  "),
                false => format!("{cell:>width$}  "),
            };
        }
        line.trim_end().to_string() + "\n"
    }

    pub fn plain(&self) -> String {
        let rows: String = self.rows.iter().map(|row| self.plain_row(row)).collect();
        let notes: String = self.notes.iter().map(|note| format!("{note}\n")).collect();
        format!(
            "{}\n\n{}{rows}{notes}",
            self.title,
            self.plain_row(&self.head)
        )
    }

    pub fn markdown(&self) -> String {
        let line = |row: &Vec<String>| format!("| {} |\n", row.join(" | "));
        let under: String = (0..self.head.len())
            .map(|column| if column < self.words { "|---" } else { "|---:" })
            .collect();
        let rows: String = self.rows.iter().map(line).collect();
        let notes: String = self
            .notes
            .iter()
            .map(|note| format!("\n{note}\n"))
            .collect();
        let head = line(&self.head);
        format!("### {}\n\n{head}{under}|\n{rows}{notes}", self.title)
    }
}

#[cfg(test)]
mod tests {
    use super::Table;

    #[test]
    fn both_forms_of_a_table() {
        let mut table = Table::new("Times", 1, &["what", "ns"]);
        table.row(vec!["a".to_string(), "12".to_string()]);
        table.notes.push("A note.".to_string());
        assert_eq!(table.plain(), "Times\n\nwhat  ns\na     12\nA note.\n");
        let markdown = "### Times\n\n| what | ns |\n|---|---:|\n| a | 12 |\n\nA note.\n";
        assert_eq!(table.markdown(), markdown);
    }
}

//! Tables with aligned columns.

/// One line of a table of fields.
#[derive(Clone, Debug, PartialEq, Eq)]
pub struct Row {
    /// How deep the field stands in inline types; 0 for a field of the definition.
    pub level: usize,
    pub offset: u64,
    pub size: u64,
    pub content: Content,
}

#[derive(Clone, Debug, PartialEq, Eq)]
pub enum Content {
    Field {
        name: String,
        type_text: String,
        alignment: u64,
    },
    /// Between fields.
    Gap,
    /// After the last field.
    Padding,
    /// What one member of a union leaves of it; only in pictures.
    Unused,
}

impl Row {
    fn cells(&self) -> [String; 5] {
        let margin = "  ".repeat(self.level);
        let (alignment, name, type_text) = match &self.content {
            Content::Field {
                name,
                type_text,
                alignment,
            } => (alignment.to_string(), name.as_str(), type_text.as_str()),
            Content::Gap => (String::new(), "(gap)", ""),
            Content::Padding => (String::new(), "(padding)", ""),
            Content::Unused => (String::new(), "(unused)", ""),
        };
        [
            self.offset.to_string(),
            self.size.to_string(),
            alignment,
            format!("{margin}{name}"),
            type_text.to_string(),
        ]
    }
}

const HEAD: [&str; 5] = ["offset", "size", "alignment", "name", "type"];
/// The first columns hold numbers, set to the right.
const NUMBERS: usize = 3;

/// The rows under a head, each with a margin before it; nothing for no rows.
pub fn table(rows: &[Row]) -> String {
    if rows.is_empty() {
        return String::new();
    }
    let cells = rows.iter().map(Row::cells);
    let lines: Vec<[String; 5]> = std::iter::once(HEAD.map(String::from))
        .chain(cells)
        .collect();
    let width = |column: usize| {
        let widths = lines.iter().map(|line| line[column].chars().count());
        widths.max().unwrap_or(0)
    };
    let widths: Vec<usize> = (0..HEAD.len()).map(width).collect();
    let mut out = String::new();
    for line in &lines {
        let mut text = String::new();
        for (column, cell) in line.iter().enumerate() {
            let width = widths[column];
            match column < NUMBERS {
                true => text.push_str(&format!("  {cell:>width$}")),
                false => text.push_str(&format!("  {cell:<width$}")),
            }
        }
        out.push_str(text.trim_end());
        out.push('\n');
    }
    out
}

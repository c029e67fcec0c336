//! The commands of `pathtool`, from the table that the other tools also read.

const TABLE: &str = include_str!("../../../tests/commands.txt");

/// A command of the program.
pub struct Command {
    pub name: &'static str,
    /// The table's words for the fields after the first one, such as `BASE` or `EDIT..`; empty if
    /// there are none.
    pub behind: &'static str,
    pub group: &'static str,
    /// True if std::path returns the same answers.
    pub is_std: bool,
}

/// Returns the command of a row of the form `NAME FIELDS | GROUP | STD`.
fn read(row: &'static str) -> Option<Command> {
    let mut cells = row.split(" | ");
    let mut fields = cells.next()?.split(' ');
    Some(Command {
        name: fields.next()?,
        behind: fields.nth(1).unwrap_or_default(),
        group: cells.next()?,
        is_std: cells.next()? != "-",
    })
}

/// Returns each command of the table.
pub fn all() -> impl Iterator<Item = Command> {
    let rows = TABLE.lines().filter(|line| !line.starts_with([' ', '#']));
    rows.map(|row| read(row).unwrap_or_else(|| panic!("no row of commands.txt: {row}")))
}

/// Returns the table's words for the fields after the first one of the command, or nothing if the
/// command is unknown.
pub fn behind(name: &str) -> &'static str {
    all()
        .find(|command| command.name == name)
        .map_or("", |command| command.behind)
}

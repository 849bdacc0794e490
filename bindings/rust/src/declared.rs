//! Names.

/// What a program declares, each kind in the order of its text: the place of a name is its number.
///
/// ```
/// let bank = stm::Service::open("(stm 3) (table acct 9 0) (tx add (i k) (put acct i (add (at acct i) k)) 0)")?;
/// let declared = bank.declared();
/// assert_eq!(declared.tables, [("acct".to_string(), 9)]);
/// assert_eq!(declared.transactions, [("add".to_string(), vec!["i".to_string(), "k".to_string()])]);
/// # Ok::<(), stm::Error>(())
/// ```
#[derive(Clone, Debug, PartialEq, Eq)]
pub struct Declared {
    /// Their names, without those of cells.
    pub variables: Vec<String>,
    /// Each with how many cells it has.
    pub tables: Vec<(String, u32)>,
    /// The standing conditions.
    pub conditions: Vec<String>,
    /// Each with the names of its parameters.
    pub transactions: Vec<(String, Vec<String>)>,
}

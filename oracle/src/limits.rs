//! Every limit of docs/SPECIFICATION.md, once, under one name.

/// Symbols in an alphabet (1).
pub const SYMBOLS_MAX: usize = 64;
/// Children of one symbol (1).
pub const CHILDREN_MAX: usize = 4;
/// Rows of a lent record table (2.1).
pub const ROWS_MAX: usize = 16_384;
/// Representatives, hence states (2.3, T3).
pub const STATES_MAX: usize = 32;
/// Transitions, hence rules (2.3, T2).
pub const RULES_MAX: usize = 256;
/// Contexts: the hole, and one for each representative and each transition (2.3, T4).
pub const CONTEXTS_MAX: usize = 1 + STATES_MAX + RULES_MAX;
/// Symbols of a listed record (3.4, 3.8), and of a question that the script writes out (8).
pub const RECORD_MAX: usize = 1_024;
/// Rows that the script program lends (8).
pub const SCRIPT_ROWS: usize = 2_730;
/// Bytes of standard input that the script program reads (8).
pub const SCRIPT_BYTES: usize = 65_536;

/// Numbers in one row: symbol, answer, four child rows (2.1).
pub const ROW_WORDS: usize = 2 + CHILDREN_MAX;
/// The symbol of row 0, which no alphabet reaches (2.1).
pub const HOLE_SYMBOL: u32 = 255;

// The order of the refusal table's rows, once for every reference over the Rust: document 01's, with document 02's 14 before 7 and 19 behind it.
const ORDER: [u8; 15] = [13, 1, 2, 3, 4, 14, 7, 19, 8, 9, 10, 11, 12, 5, 6];

// The row that refuses a call, of rows whose conditions are met or not: the first that is met, by the order.
pub fn first(rows: &[(u8, bool)]) -> Option<u8> {
    ORDER.into_iter().find(|&row| rows.contains(&(row, true)))
}

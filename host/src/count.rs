//! A number of things in words.

/// `1 octet`, `2 octets`, `0 addresses`: the number, and one of the things, as many where there are not just one.
pub fn count(number: usize, one: &str) -> String {
    match number {
        1 => format!("1 {one}"),
        _ if one.ends_with('s') => format!("{number} {one}es"),
        _ => format!("{number} {one}s"),
    }
}

#[cfg(test)]
mod tests {
    use super::count;

    #[test]
    fn one_and_many() {
        assert_eq!(count(0, "octet"), "0 octets");
        assert_eq!(count(1, "octet"), "1 octet");
        assert_eq!(count(2, "octet"), "2 octets");
        assert_eq!(count(1, "address"), "1 address");
        assert_eq!(count(12, "address"), "12 addresses");
    }
}

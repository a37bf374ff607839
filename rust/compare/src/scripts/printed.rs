//! The lines of a printout that tell of a line of the script.

/// Line and number of each refused step, in the order of their printing.
pub fn refused(printout: &[u8]) -> impl Iterator<Item = (usize, usize)> + '_ {
    numbers(printout, "(refused ")
}

/// Line and number of the script's first bad line.
pub fn bad(printout: &[u8]) -> Option<(usize, usize)> {
    numbers(printout, "(bad ").next()
}

/// Whether posts are printed at the end.
pub fn has_posts(printout: &[u8]) -> bool {
    let mut lines = printout.split_inclusive(|&byte| byte == b'\n');
    let last = lines.next_back();
    last.is_some_and(|line| line.starts_with(b"(post ") && line.ends_with(b"\n"))
}

/// The two numbers of each printed line that starts so.
fn numbers<'a>(printout: &'a [u8], start: &'a str) -> impl Iterator<Item = (usize, usize)> + 'a {
    let lines = printout.split(|&byte| byte == b'\n');
    lines.filter_map(move |line| {
        let text = std::str::from_utf8(line).ok()?;
        let inside = text.strip_prefix(start)?.strip_suffix(')')?;
        let (line, number) = inside.split_once(' ')?;
        Some((line.parse().ok()?, number.parse().ok()?))
    })
}

#[cfg(test)]
mod tests {
    use super::{bad, has_posts, refused};

    #[test]
    fn refused_and_bad_lines_are_read() {
        let printout = b"(refused 7 25)\n(refused 1026 27)\n(post 0 (clock 4) (sent 1) (log))\n";
        assert_eq!(
            refused(printout).collect::<Vec<_>>(),
            [(7, 25), (1_026, 27)]
        );
        assert_eq!(bad(printout), None);
        assert!(has_posts(printout));
        for other in [&printout[..15], &printout[..printout.len() - 1], b""] {
            assert!(!has_posts(other));
        }
        assert_eq!(bad(b"(bad 0 1)\n"), Some((0, 1)));
        assert_eq!(refused(b"(bad 0 1)\n").count(), 0);
        assert_eq!(refused(b"(refused 7)\n(refused x 2)\n").count(), 0);
    }
}

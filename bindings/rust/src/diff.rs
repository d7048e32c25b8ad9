//! The lines in which two texts differ.

/// The number of lines that are shown around a difference.
const CONTEXT: usize = 3;

/// The greatest size of the table of longest common subsequences. Of longer texts the differing parts are shown as wholes.
const MAX_CELLS: usize = 4 << 20;

const BOTH: char = ' ';
const FIRST: char = '-';
const SECOND: char = '+';

/// A line, with its end, and which of two texts has it.
#[derive(Clone, Copy, Debug, PartialEq, Eq)]
struct Line<'a> {
    mark: char,
    text: &'a str,
}

/// Returns the unified diff of two texts with these names. A hunk that begins inside of a message of linkshow has the message's
/// first line in its header.
pub(crate) fn unified_diff(names: [&str; 2], first: &str, second: &str) -> String {
    let lines = align(&first.split_inclusive('\n').collect::<Vec<_>>(), &second.split_inclusive('\n').collect::<Vec<_>>());
    let is_selected = select_lines(&lines);
    let mut out = format!("--- {}\n+++ {}\n", names[0], names[1]);
    let mut start = 0;
    while let Some(skipped) = is_selected[start..].iter().position(|&is_selected| is_selected) {
        let from = start + skipped;
        start = from + is_selected[from..].iter().take_while(|&&is_selected| is_selected).count();
        push_hunk(&mut out, &lines[..from], &lines[from..start]);
    }
    out
}

/// Appends the lines of a hunk, which come after others.
fn push_hunk(out: &mut String, before: &[Line<'_>], hunk: &[Line<'_>]) {
    let range = |other: char| {
        let count = |lines: &[Line<'_>]| lines.iter().filter(|line| line.mark != other).count();
        let length = count(hunk);
        // An empty range has the number of the line before it.
        format!("{},{length}", count(before) + usize::from(length > 0))
    };
    out.push_str(&format!("@@ -{} +{} @@{}\n", range(SECOND), range(FIRST), message_before(before, hunk)));
    for line in hunk {
        out.push(line.mark);
        out.push_str(line.text);
        if !line.text.ends_with('\n') {
            out.push_str("\n\\ No newline at end of file\n");
        }
    }
}

/// Returns a space and the first line of the message that a hunk begins inside of; or nothing.
fn message_before(before: &[Line<'_>], hunk: &[Line<'_>]) -> String {
    let is_inside = |line: &&Line<'_>| line.text.starts_with(' ');
    match before.iter().rev().find(|line| line.mark != SECOND && !is_inside(line)) {
        Some(line) if hunk.first().filter(is_inside).is_some() => format!(" {}", line.text.trim_end()),
        _ => String::new(),
    }
}

/// Pairs equal lines: those of the longest common prefix and suffix, and a longest common subsequence of the others.
fn align<'a>(a: &[&'a str], b: &[&'a str]) -> Vec<Line<'a>> {
    let start = a.iter().zip(b).take_while(|(x, y)| x == y).count();
    let end = a[start..].iter().rev().zip(b[start..].iter().rev()).take_while(|(x, y)| x == y).count();
    let (x, y) = (&a[start..a.len() - end], &b[start..b.len() - end]);
    let mut lines = mark_lines(BOTH, &a[..start]);
    if x.len().saturating_mul(y.len()) > MAX_CELLS {
        lines.extend(mark_lines(FIRST, x));
        lines.extend(mark_lines(SECOND, y));
    } else {
        lines.extend(align_by_lengths(x, y, &common_lengths(x, y)));
    }
    lines.extend(mark_lines(BOTH, &a[a.len() - end..]));
    lines
}

fn mark_lines<'a>(mark: char, lines: &[&'a str]) -> Vec<Line<'a>> {
    lines.iter().map(|text| Line { mark, text }).collect()
}

/// Returns at `[i][j]` the length of the longest common subsequence of `a[i..]` and `b[j..]`.
fn common_lengths(a: &[&str], b: &[&str]) -> Vec<Vec<u32>> {
    let mut table = vec![vec![0; b.len() + 1]; a.len() + 1];
    for (i, line) in a.iter().enumerate().rev() {
        table[i] = common_row(line, b, &table[i + 1]);
    }
    table
}

fn common_row(line: &str, b: &[&str], next: &[u32]) -> Vec<u32> {
    let mut row = vec![0; b.len() + 1];
    for (j, other) in b.iter().enumerate().rev() {
        row[j] = if line == *other { next[j + 1] + 1 } else { next[j].max(row[j + 1]) };
    }
    row
}

fn align_by_lengths<'a>(a: &[&'a str], b: &[&'a str], lengths: &[Vec<u32>]) -> Vec<Line<'a>> {
    let (mut lines, mut i, mut j) = (Vec::new(), 0, 0);
    while i < a.len() || j < b.len() {
        let mark = if i < a.len() && j < b.len() && a[i] == b[j] {
            BOTH
        } else if j == b.len() || i < a.len() && lengths[i + 1][j] >= lengths[i][j + 1] {
            FIRST
        } else {
            SECOND
        };
        lines.push(Line { mark, text: if mark == SECOND { b[j] } else { a[i] } });
        i += usize::from(mark != SECOND);
        j += usize::from(mark != FIRST);
    }
    lines
}

/// Selects the lines near a difference.
fn select_lines(lines: &[Line<'_>]) -> Vec<bool> {
    let mut is_selected = vec![false; lines.len()];
    let mut end = 0;
    for (i, line) in lines.iter().enumerate() {
        if line.mark != BOTH {
            is_selected[i.saturating_sub(CONTEXT)..i].fill(true);
            end = i + CONTEXT + 1;
        }
        is_selected[i] |= i < end;
    }
    is_selected
}

#[cfg(test)]
mod tests {
    use super::{align, unified_diff, BOTH, FIRST, SECOND};

    #[test]
    fn diffs() {
        let long = "message\n".repeat(3000);
        let (before, after) = (format!("a\n{long}b\n"), format!("c\n{long}b\n"));
        for (first, second, diff) in [
            ("", "", ""),
            ("a\n", "a\n", ""),
            ("a\n", "b\n", "@@ -1,1 +1,1 @@\n-a\n+b\n"),
            ("", "b\n", "@@ -0,0 +1,1 @@\n+b\n"),
            ("a", "", "@@ -1,1 +0,0 @@\n-a\n\\ No newline at end of file\n"),
            ("m\n 1\n 2\n 3\n 4\n 5\n 6\n", "m\n 1\n 2\n 3\n 4\n 5\n 7\n", "@@ -4,4 +4,4 @@ m\n  3\n  4\n  5\n- 6\n+ 7\n"),
            ("m\n 1\nn\n 2\no\np\nq\nr\n", "m\n 3\nn\n 2\no\np\nq\nr\n", "@@ -1,5 +1,5 @@\n m\n- 1\n+ 3\n n\n  2\n o\n"),
            (&before, &after, "@@ -1,4 +1,4 @@\n-a\n+c\n message\n message\n message\n"),
        ] {
            assert_eq!(unified_diff(["x", "y"], first, second), format!("--- x\n+++ y\n{diff}"));
        }
    }

    #[test]
    fn long_differences_are_whole() {
        let diff = unified_diff(["x", "y"], &"a\n".repeat(3000), &"b\n".repeat(3000));
        let lines: Vec<&str> = diff.lines().collect();
        assert_eq!((lines.len(), lines[2], lines[3], lines[6002]), (6003, "@@ -1,3000 +1,3000 @@", "-a", "+b"));
    }

    /// Returns the length of the longest common subsequence, by trying each.
    fn common_length(a: &[&str], b: &[&str]) -> usize {
        match (a.split_first(), b.split_first()) {
            (Some((x, rest)), Some((y, others))) if x == y => 1 + common_length(rest, others),
            (Some((_, rest)), Some((_, others))) => common_length(rest, b).max(common_length(a, others)),
            _ => 0,
        }
    }

    /// Returns the text of a number: a line for each of its digits to the base 3.
    fn text_of(mut number: usize) -> Vec<&'static str> {
        let mut lines = Vec::new();
        while number > 0 {
            lines.push(["a", "b", "c"][number % 3]);
            number /= 3;
        }
        lines
    }

    #[test]
    fn both_texts_are_in_the_lines() {
        for (i, j) in (0..243).flat_map(|i| (0..243).map(move |j| (i, j))) {
            let (a, b) = (text_of(i), text_of(j));
            let lines = align(&a, &b);
            let without = |mark| lines.iter().filter(|line| line.mark != mark).map(|line| line.text).collect::<Vec<_>>();
            assert_eq!((without(SECOND), without(FIRST)), (a.clone(), b.clone()));
            assert_eq!(lines.iter().filter(|line| line.mark == BOTH).count(), common_length(&a, &b));
        }
    }
}

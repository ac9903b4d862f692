//! The words of a sentence, and which of them the sentence before has not.

/// A word, or the mark behind it; and whether a space stands before it.
#[derive(Clone, Copy, PartialEq, Debug)]
pub struct Word<'a> {
    pub text: &'a str,
    pub spaced: bool,
}

fn words(text: &str) -> Vec<Word<'_>> {
    let mut out = Vec::new();
    for (i, part) in text.split(' ').enumerate() {
        let word = part.trim_end_matches(['.', ',', ':']);
        let (word, mark) = part.split_at(word.len());
        out.push(Word {
            text: word,
            spaced: i > 0,
        });
        if !mark.is_empty() {
            out.push(Word {
                text: mark,
                spaced: false,
            });
        }
    }
    out
}

/// Each word, and whether it is new: not part of the longest common
/// subsequence of the words of both sentences.
pub fn differing<'a>(before: Option<&str>, text: &'a str) -> Vec<(Word<'a>, bool)> {
    let new = words(text);
    let Some(before) = before else {
        return new.into_iter().map(|w| (w, false)).collect();
    };
    let old = words(before);
    let same = |i: usize, j: usize| old[i].text == new[j].text;
    // common[i][j]: of what is left from old's i and new's j on.
    let mut common = vec![vec![0usize; new.len() + 1]; old.len() + 1];
    for i in (0..old.len()).rev() {
        for j in (0..new.len()).rev() {
            common[i][j] = match same(i, j) {
                true => common[i + 1][j + 1] + 1,
                false => common[i + 1][j].max(common[i][j + 1]),
            };
        }
    }
    let (mut i, mut out) = (0, Vec::new());
    for (j, &word) in new.iter().enumerate() {
        while i < old.len() && !same(i, j) && common[i + 1][j] == common[i][j] {
            i += 1;
        }
        let kept = i < old.len() && same(i, j);
        if kept {
            i += 1;
        }
        out.push((word, !kept));
    }
    out
}

#[cfg(test)]
mod tests {
    use super::differing;

    fn new(before: &str, text: &str) -> Vec<String> {
        let all = differing(Some(before), text);
        all.iter()
            .filter(|w| w.1)
            .map(|w| w.0.text.into())
            .collect()
    }

    #[test]
    fn what_is_new_is_marked() {
        assert_eq!(
            new("1 whale was seen.", "2 whales were seen."),
            ["2", "whales", "were"]
        );
        assert_eq!(new("2 whales were seen", "3 whales were seen"), ["3"]);
        assert_eq!(new("on leg 7.", "on leg 7, with"), [",", "with"]);
        assert_eq!(new("a b c", "a b c"), [""; 0]);
        assert_eq!(new("a b c", "b c a"), ["a"]);
        assert_eq!(new("", "a"), ["a"]);
    }

    #[test]
    fn nothing_before_marks_nothing() {
        assert!(differing(None, "a b").iter().all(|w| !w.1));
    }
}

//! Whether a file of SVG is well formed, as far as this project writes XML: elements, attributes in
//! double quotes, words with the five entities.

/// What is wrong first.
pub(super) fn fault_in(xml: &str) -> Option<String> {
    let mut open: Vec<&str> = Vec::new();
    let mut rest = xml.strip_suffix('\n').unwrap_or(xml);
    let mut roots = 0;
    while let Some(place) = rest.find('<') {
        let (words, from) = rest.split_at(place);
        let Some((tag, after)) = from[1..].split_once('>') else {
            return Some(format!("a tag without an end: {from}"));
        };
        if !are_escaped(words) || (open.is_empty() && !words.is_empty()) {
            return Some(format!("words that cannot stand there: {words}"));
        }
        if let Some(name) = tag.strip_prefix('/') {
            if open.pop() != Some(name) {
                return Some(format!("the end of what did not begin: {name}"));
            }
        } else {
            let (is_empty, tag) = match tag.strip_suffix('/') {
                Some(tag) => (true, tag),
                None => (false, tag),
            };
            let (name, attributes) = tag.split_once(' ').unwrap_or((tag, ""));
            if !are_attributes(attributes) {
                return Some(format!("attributes that are none: {tag}"));
            }
            roots += usize::from(open.is_empty());
            if !is_empty {
                open.push(name);
            }
        }
        rest = after;
    }
    let ended = open.is_empty() && rest.is_empty() && roots == 1;
    (!ended).then(|| format!("{roots} roots, {open:?} without an end, and then {rest}"))
}

fn are_escaped(words: &str) -> bool {
    let entities = ["amp;", "lt;", "gt;", "quot;", "apos;"];
    let mut after = words.split('&').skip(1);
    !words.contains('>') && after.all(|rest| entities.iter().any(|name| rest.starts_with(name)))
}

/// `name="words"`, with a blank between two and no name twice.
fn are_attributes(attributes: &str) -> bool {
    let mut names = Vec::new();
    let mut rest = attributes;
    while !rest.is_empty() {
        let Some((name, after)) = rest.split_once("=\"") else {
            return false;
        };
        let Some((words, after)) = after.split_once('"') else {
            return false;
        };
        let is_name = name
            .chars()
            .all(|letter| letter.is_ascii_alphanumeric() || letter == '-');
        if !is_name || names.contains(&name) || !are_escaped(words) {
            return false;
        }
        names.push(name);
        rest = after.strip_prefix(' ').unwrap_or(after);
    }
    true
}

#[test]
fn what_is_not_well_formed_is_found() {
    for good in ["<a/>", "<a b=\"1\" c=\"2\"><d>x &amp; y</d><e/></a>\n"] {
        assert_eq!(fault_in(good), None, "{good}");
    }
    for bad in [
        "",
        "<a>",
        "<a></b>",
        "<a></a></a>",
        "<a/><b/>",
        "x<a/>",
        "<a/>x",
        "<a",
        "<a>x & y</a>",
        "<a>x > y</a>",
        "<a b=1/>",
        "<a b=\"1/>",
        "<a b=\"1\" b=\"2\"/>",
        "<a b=\"&\"/>",
    ] {
        assert!(fault_in(bad).is_some(), "{bad}");
    }
}

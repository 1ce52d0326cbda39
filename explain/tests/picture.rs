//! The picture: that of examples/ is the one drawn, and every picture is well-formed.

mod common;

use common::{example, EXAMPLES};
use explain::as_picture;

#[test]
fn example_is_the_one_drawn() {
    let drawn = as_picture("offline.txt", &example("offline.txt"));
    assert_eq!(drawn.status, 0);
    let kept = String::from_utf8(example("offline.svg")).unwrap();
    assert!(drawn.output == kept, "make it again: explain --svg examples/offline.txt > examples/offline.svg");
}

#[test]
fn pictures_are_well_formed() {
    for name in EXAMPLES {
        well_formed(&as_picture(name, &example(&format!("{name}.txt"))).output);
    }
    for script in
        ["", "\r\n", "lines 9 items\n", "lines 1 items\n<a href='x'>&\u{1}\"\n", "lines 8 items 1\n8 ins 1 4294967295\n8 up 1\n3 down 1"]
    {
        well_formed(&as_picture("<&>.txt", script.as_bytes()).output);
    }
    well_formed(&as_picture("long", &[b'\n'; 65_537]).output);
}

#[test]
fn marks() {
    let picture = as_picture("refused.txt", &example("refused.txt")).output;
    for part in
        [">server<", ">bay 1<", ">bay 2<", ">insert 201 at 2<", ">arrived at 2, applied at 3<", ">taken before<", ">unknown word `insert`<"]
    {
        assert!(picture.contains(part), "{part}");
    }
    let refused = |number: u8| picture.matches(&format!("class='white'>{number}</text>")).count();
    // the legend has one 9 more
    assert_eq!((refused(5), refused(9), refused(13)), (1, 3, 3));
    assert_eq!(picture.matches("class='white'>?</text>").count(), 3);
}

/// Every tag is closed, in order; attributes are quoted; no bare `&` or `<` in text.
fn well_formed(picture: &str) {
    let mut open: Vec<&str> = Vec::new();
    let mut rest = picture;
    while let Some(at) = rest.find('<') {
        text(&rest[..at]);
        let end = at + rest[at..].find('>').expect("a tag ends");
        let tag = &rest[at + 1..end];
        rest = &rest[end + 1..];
        let name = tag.trim_matches('/').split(' ').next().unwrap_or("");
        assert!(!name.is_empty() && name.bytes().all(|byte| byte.is_ascii_alphanumeric()), "{tag}");
        assert!(tag.matches('\'').count() % 2 == 0, "{tag}");
        if tag.starts_with('/') {
            assert_eq!(open.pop(), Some(name));
        } else if !tag.ends_with('/') {
            open.push(name);
        }
        assert!(!open.is_empty() || rest.trim().is_empty(), "one root");
    }
    assert!(open.is_empty() && rest.trim().is_empty(), "{open:?}");
}

fn text(text: &str) {
    assert!(!text.contains('>') && text.chars().all(|letter| !letter.is_control() || letter == '\n'), "{text:?}");
    for part in text.split('&').skip(1) {
        assert!(["amp;", "lt;", "gt;"].iter().any(|entity| part.starts_with(entity)), "{text:?}");
    }
}

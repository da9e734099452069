//! Reading a picture's shapes: one stands on each line.

/// The value of an attribute of a shape.
pub fn attribute<'a>(shape: &'a str, name: &str) -> &'a str {
    let start = format!(" {name}=\"");
    let Some(at) = shape.find(&start) else {
        return "";
    };
    let rest = &shape[at + start.len()..];
    &rest[..rest.find('"').expect("a closing quote")]
}

pub fn number(shape: &str, name: &str) -> f64 {
    attribute(shape, name).parse().expect("a number")
}

/// The shapes of a kind.
pub fn shapes<'a>(picture: &'a str, tag: &'static str) -> impl Iterator<Item = &'a str> {
    picture.lines().filter(move |line| line.starts_with(tag))
}

/// What a text says.
pub fn said(shape: &str) -> String {
    let inner = &shape[shape.find('>').expect("an end") + 1..shape.rfind('<').expect("a tag")];
    inner
        .replace("&gt;", ">")
        .replace("&lt;", "<")
        .replace("&quot;", "\"")
        .replace("&amp;", "&")
}

/// The places of all texts that say this.
pub fn places(picture: &str, text: &str) -> Vec<(f64, f64)> {
    let texts = shapes(picture, "<text").filter(|shape| said(shape) == text);
    texts
        .map(|shape| (number(shape, "x"), number(shape, "y")))
        .collect()
}

/// The place of the one text that says this.
pub fn place(picture: &str, text: &str) -> (f64, f64) {
    match places(picture, text)[..] {
        [place] => place,
        ref places => panic!("{} times: {text}", places.len()),
    }
}

//! A small reader of SVG text: tags balanced, attributes quoted, and what is drawn where.

use std::collections::BTreeMap;

#[derive(Clone, Debug, Default)]
pub struct Element {
    pub name: String,
    /// Its own and, where it has none of that name, those of the groups around it.
    pub attributes: BTreeMap<String, String>,
    pub text: String,
}

impl Element {
    pub fn number(&self, name: &str) -> f64 {
        let value = self.attributes.get(name);
        let value = value.unwrap_or_else(|| panic!("{self:?} has no {name}"));
        value.parse().unwrap_or_else(|_| panic!("{name}: {value}"))
    }

    pub fn is_in(&self, class: &str) -> bool {
        self.attributes.get("class").is_some_and(|own| own == class)
    }

    /// Left, top, right and bottom.
    pub fn extent(&self) -> [f64; 4] {
        let n = |name| self.number(name);
        match self.name.as_str() {
            "line" => {
                let (x1, y1, x2, y2) = (n("x1"), n("y1"), n("x2"), n("y2"));
                [x1.min(x2), y1.min(y2), x1.max(x2), y1.max(y2)]
            }
            "rect" => [n("x"), n("y"), n("x") + n("width"), n("y") + n("height")],
            "circle" => {
                let (x, y, r) = (n("cx"), n("cy"), n("r"));
                [x - r, y - r, x + r, y + r]
            }
            "polygon" => self.polygon(),
            "text" => self.line_of_text(),
            other => panic!("{other} is not drawn"),
        }
    }

    fn polygon(&self) -> [f64; 4] {
        let points = self.attributes["points"].split(' ').map(|point| {
            let (x, y) = point.split_once(',').unwrap();
            (x.parse::<f64>().unwrap(), y.parse::<f64>().unwrap())
        });
        points.fold(
            [f64::MAX, f64::MAX, f64::MIN, f64::MIN],
            |[l, t, r, b], (x, y)| [l.min(x), t.min(y), r.max(x), b.max(y)],
        )
    }

    /// In a monospaced font, 0.6 of its size a character.
    fn line_of_text(&self) -> [f64; 4] {
        let (x, y, size) = (self.number("x"), self.number("y"), self.number("font-size"));
        let (long, high) = (0.6 * size * self.text.chars().count() as f64, 0.75 * size);
        if self.attributes.contains_key("transform") {
            // A title beside the axis, turned about its middle.
            return [x - high, y - long / 2.0, x, y + long / 2.0];
        }
        let left = match self.attributes.get("text-anchor").map(String::as_str) {
            Some("middle") => x - long / 2.0,
            Some("end") => x - long,
            _ => x,
        };
        [left, y - high, left + long, y]
    }
}

pub struct Picture {
    pub width: f64,
    pub height: f64,
    pub title: String,
    /// Everything that is drawn, in its order.
    pub elements: Vec<Element>,
}

impl Picture {
    pub fn of_class(&self, class: &str) -> Vec<&Element> {
        self.elements
            .iter()
            .filter(|element| element.is_in(class))
            .collect()
    }

    pub fn texts(&self, class: &str) -> Vec<&str> {
        let texts = self
            .of_class(class)
            .into_iter()
            .filter(|element| element.name == "text");
        texts.map(|element| element.text.as_str()).collect()
    }
}

/// Panics where the text is not well-formed.
pub fn read(svg: &str) -> Picture {
    let (mut open, mut elements, mut rest) = (Vec::<Element>::new(), Vec::new(), svg);
    let (mut title, mut root) = (String::new(), Element::default());
    while let Some(at) = rest.find('<') {
        let (text, tag) = rest.split_at(at);
        assert!(!text.contains('>'), "a stray bracket: {text}");
        if let Some(element) = open.last_mut() {
            element.text += text.trim();
        }
        let end = tag.find('>').expect("every tag ends");
        let inside = &tag[1..end];
        rest = &tag[end + 1..];
        if let Some(name) = inside.strip_prefix('/') {
            let element = open.pop().expect("something is open");
            assert_eq!(element.name, name);
            match name {
                "title" => title = element.text,
                "text" => elements.push(element),
                "svg" => root = element,
                _ => {}
            }
        } else if let Some(alone) = inside.strip_suffix('/') {
            elements.push(element(alone, open.last()));
        } else {
            open.push(element(inside, open.last()));
        }
    }
    assert!(open.is_empty() && rest.trim().is_empty());
    let (width, height) = (root.number("width"), root.number("height"));
    assert_eq!(root.attributes["viewBox"], format!("0 0 {width} {height}"));
    Picture {
        width,
        height,
        title,
        elements,
    }
}

fn element(inside: &str, around: Option<&Element>) -> Element {
    let (name, mut rest) = inside.split_once(' ').unwrap_or((inside, ""));
    let mut attributes = around.map_or_else(BTreeMap::new, |around| around.attributes.clone());
    let mut own = BTreeMap::new();
    while !rest.trim().is_empty() {
        let (key, after) = rest
            .split_once("=\"")
            .expect("an attribute has a quoted value");
        let (value, after) = after.split_once('"').expect("the quotation ends");
        let key = key.trim();
        assert!(!key.is_empty() && !key.contains(' '), "{inside}");
        assert!(
            own.insert(key.to_string(), value.to_string()).is_none(),
            "{key} twice: {inside}"
        );
        rest = after;
    }
    attributes.extend(own);
    Element {
        name: name.into(),
        attributes,
        text: String::new(),
    }
}

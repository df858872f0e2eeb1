//! Pictures as SVG: boxes, lines with arrowheads, and text whose width is known.

use std::fmt::Write;

use super::html::escape;

/// The width of a character and the height of a line of text, in pixels.
pub const CHARACTER: i32 = 8;
pub const LINE: i32 = 16;

/// A rectangle by its upper left corner.
#[derive(Clone, Copy, Debug, PartialEq, Eq)]
pub struct Area {
    pub x: i32,
    pub y: i32,
    pub width: i32,
    pub height: i32,
}

#[cfg(test)]
impl Area {
    pub fn overlaps(&self, other: &Area) -> bool {
        self.x < other.x + other.width
            && other.x < self.x + self.width
            && self.y < other.y + other.height
            && other.y < self.y + self.height
    }
}

/// How wide a text is.
pub fn width_of(text: &str) -> i32 {
    CHARACTER * text.chars().count() as i32
}

/// Letters behind a text, in the same line, with a class of their own.
#[derive(Clone, Copy)]
pub struct Tail<'a> {
    pub class: &'a str,
    pub text: &'a str,
}

/// A picture that grows with what is put in.
#[derive(Default)]
pub struct Picture {
    body: String,
    width: i32,
    height: i32,
    /// What boxes and texts take up, in the order they were put in. A text in a box counts with its
    /// box.
    pub areas: Vec<Area>,
}

impl Picture {
    /// Makes room up to a point.
    pub fn reach(&mut self, x: i32, y: i32) {
        self.width = self.width.max(x + 8);
        self.height = self.height.max(y + 8);
    }

    fn push(&mut self, element: std::fmt::Arguments) {
        self.body.write_fmt(element).expect("a string takes all");
        self.body.push('\n');
    }

    pub fn rectangle(&mut self, area: Area, class: &str) {
        let Area {
            x,
            y,
            width,
            height,
        } = area;
        self.reach(x + width, y + height);
        self.push(format_args!(
            "<rect class=\"{class}\" x=\"{x}\" y=\"{y}\" width=\"{width}\" height=\"{height}\" \
             rx=\"4\"/>"
        ));
    }

    /// A box with a text in its middle.
    pub fn labelled(&mut self, area: Area, class: &str, text: &str, tail: Option<Tail>) {
        self.rectangle(area, class);
        let width = width_of(text) + tail.map_or(0, |tail| width_of(tail.text));
        let x = area.x + (area.width - width) / 2;
        let y = area.y + (area.height - LINE) / 2;
        self.letters(x, y, class, text, tail);
        self.areas.push(area);
    }

    /// A text by its upper left corner.
    pub fn text(&mut self, x: i32, y: i32, class: &str, text: &str) {
        self.letters(x, y, class, text, None);
        self.areas.push(Area {
            x,
            y,
            width: width_of(text),
            height: LINE,
        });
    }

    fn letters(&mut self, x: i32, y: i32, class: &str, text: &str, tail: Option<Tail>) {
        let mut width = width_of(text);
        let mut content = escape(text);
        if let Some(Tail { class, text }) = tail {
            width += width_of(text);
            content += &format!("<tspan class=\"{class}\">{}</tspan>", escape(text));
        }
        let base = y + 12;
        self.reach(x + width, y + LINE);
        self.push(format_args!(
            "<text class=\"{class}\" x=\"{x}\" y=\"{base}\" textLength=\"{width}\" \
             lengthAdjust=\"spacingAndGlyphs\">{content}</text>",
        ));
    }

    pub fn dot(&mut self, x: i32, y: i32, class: &str) {
        self.push(format_args!(
            "<circle class=\"{class}\" cx=\"{x}\" cy=\"{y}\" r=\"3\"/>"
        ));
    }

    /// A line through points.
    pub fn line(&mut self, points: &[(i32, i32)], class: &str) {
        let mut path = String::new();
        for (index, &(x, y)) in points.iter().enumerate() {
            self.reach(x, y);
            let letter = if index == 0 { 'M' } else { 'L' };
            write!(path, "{letter}{x} {y}").expect("a string takes all");
        }
        self.push(format_args!("<path class=\"line {class}\" d=\"{path}\"/>"));
    }

    /// A line through points, the last two of which are level or upright, with an arrowhead.
    pub fn arrow(&mut self, points: &[(i32, i32)], class: &str) {
        self.line(points, class);
        if let [.., (from_x, from_y), (x, y)] = *points {
            let (along_x, along_y) = ((x - from_x).signum(), (y - from_y).signum());
            let (back_x, back_y) = (x - 7 * along_x, y - 7 * along_y);
            let (side_x, side_y) = (4 * along_y, 4 * along_x);
            self.push(format_args!(
                "<path class=\"head {class}\" d=\"M{x} {y}L{} {}L{} {}Z\"/>",
                back_x + side_x,
                back_y + side_y,
                back_x - side_x,
                back_y - side_y,
            ));
        }
    }

    /// The picture as an element of a page, with words for who can't see it. It shrinks with the page
    /// as far as its text can be read.
    pub fn element(&self, class: &str, words: &str) -> String {
        let (width, height) = (self.width, self.height);
        format!(
            "<svg class=\"{class}\" role=\"img\" aria-label=\"{}\" width=\"{width}\" \
             height=\"{height}\" viewBox=\"0 0 {width} {height}\" \
             style=\"--least:{}px\">\n{}</svg>\n",
            escape(words),
            width * 3 / 5,
            self.body
        )
    }
}

/// For each interval the lowest lane in which no other one overlaps it; short ones come first.
pub fn lanes(intervals: &[(i32, i32)]) -> Vec<usize> {
    let mut order: Vec<usize> = (0..intervals.len()).collect();
    order.sort_by_key(|&index| intervals[index].1 - intervals[index].0);
    let mut taken: Vec<Vec<(i32, i32)>> = Vec::new();
    let mut lanes = vec![0; intervals.len()];
    for index in order {
        let (low, high) = intervals[index];
        let is_free = |lane: &Vec<(i32, i32)>| lane.iter().all(|&(l, h)| high < l || h < low);
        let lane = taken.iter().position(is_free).unwrap_or(taken.len());
        if lane == taken.len() {
            taken.push(Vec::new());
        }
        taken[lane].push((low, high));
        lanes[index] = lane;
    }
    lanes
}

#[cfg(test)]
mod tests {
    use super::*;

    #[test]
    fn lanes_hold_what_does_not_overlap() {
        assert_eq!(
            lanes(&[(0, 10), (2, 3), (5, 6), (6, 9), (11, 12)]),
            [2, 0, 0, 1, 0]
        );
    }

    #[test]
    fn areas_that_touch_do_not_overlap() {
        let area = |x, y| Area {
            x,
            y,
            width: 4,
            height: 4,
        };
        assert!(area(0, 0).overlaps(&area(3, 3)));
        assert!(!area(0, 0).overlaps(&area(4, 0)));
    }
}

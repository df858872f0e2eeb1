//! Heaps and shapes as pictures: a box for each cell in a row, variables above, links as arrows. The
//! value of a cell stands in its box behind a colon, as `1: 5`; facts stand below, as `1 < 2`.

use std::collections::{BTreeMap, BTreeSet};

use super::html::escape;
use super::svg::{lanes, width_of, Area, Picture, Tail, LINE};
use crate::facts_text::facts_text;
use crate::reference::heap::{Heap, Place};
use crate::reference::shape::Shape;

/// How to read a picture.
pub const OF_PICTURES: &str = "\
A box is a cell of the list, a pattern block; an arrow is its link to the next. <b>#</b> is null, the
end of a list; <b>*</b> is dangling, no block at all. The names above are the routine's variables.";

/// How wide everything is.
struct Widths {
    /// Of a box, if no value in it needs more.
    cell: i32,
    /// Between two boxes, if the names of variables leave it at that.
    gap: i32,
    /// Of an arrow to # or *.
    to_end: i32,
}

/// The widths of a picture of few cells, and of one of more than so many.
const WIDE: Widths = Widths {
    cell: 56,
    gap: 48,
    to_end: 34,
};
const NARROW: Widths = Widths {
    cell: 48,
    gap: 28,
    to_end: 22,
};
const FEW: usize = 6;

/// The least there is beside the text of a box.
const BESIDE_LABEL: i32 = 40;
const BOX_HEIGHT: i32 = 34;
const TAG: i32 = 20;
const LANE: i32 = 12;

/// Cells, links and values (by the cell) and variables that are drawn in another colour.
#[derive(Clone, Debug, Default, PartialEq, Eq)]
pub struct Marks {
    pub cells: BTreeSet<usize>,
    pub links: BTreeSet<usize>,
    pub values: BTreeSet<usize>,
    pub variables: BTreeSet<usize>,
}

impl Marks {
    /// Whether all that is marked by others is marked by these too.
    pub fn holds(&self, others: &Marks) -> bool {
        self.cells.is_superset(&others.cells)
            && self.links.is_superset(&others.links)
            && self.values.is_superset(&others.values)
            && self.variables.is_superset(&others.variables)
    }
}

/// What the pictures of a run have in common, so that a cell stays at its place.
#[derive(Clone, Debug, Default)]
pub struct Frame {
    /// The cells from left to right, and those that have a place though they aren't there.
    columns: Vec<usize>,
    /// The width of the widest number of a cell with its value.
    label: i32,
}

impl Frame {
    pub fn of(heaps: &[Heap]) -> Frame {
        let values = heaps.iter().flat_map(|heap| &heap.values);
        let widths = values
            .map(|(&cell, value)| width_of(&ahead_of_value(cell)) + width_of(&value.to_string()));
        Frame {
            columns: columns(heaps),
            label: widths.max().unwrap_or(0),
        }
    }
}

/// The number of a cell as it stands ahead of its value.
fn ahead_of_value(cell: usize) -> String {
    format!("{}: ", cell + 1)
}

/// What is drawn. Cells are named by a number, which is drawn one higher.
pub struct Scene<'a> {
    pub names: &'a [String],
    /// Where each variable stands; nothing is nowhere.
    pub variables: Vec<Option<Place>>,
    pub links: BTreeMap<usize, Option<Place>>,
    /// The values of the cells that have one.
    pub values: BTreeMap<usize, usize>,
    /// The facts of a shape, if it has any.
    pub facts: Option<String>,
    pub frame: Frame,
    /// Cells that were deleted.
    pub gone: BTreeSet<usize>,
    /// Whether an arrow may stand for several links.
    pub has_paths: bool,
    /// What is forbidden, and what has changed.
    pub forbidden: Marks,
    pub changed: Marks,
}

impl<'a> Scene<'a> {
    pub fn of_heap(heap: &Heap, names: &'a [String], frame: &Frame) -> Scene<'a> {
        let links = heap.links.iter().map(|(&cell, &place)| (cell, Some(place)));
        Scene {
            names,
            variables: heap.variables.iter().copied().map(Some).collect(),
            links: links.collect(),
            values: heap.values.clone(),
            facts: None,
            frame: frame.clone(),
            gone: BTreeSet::new(),
            has_paths: false,
            forbidden: Marks::default(),
            changed: Marks::default(),
        }
    }

    pub fn of_shape(shape: &Shape, names: &'a [String]) -> Scene<'a> {
        let links: BTreeMap<usize, Option<Place>> =
            shape.links.iter().copied().enumerate().collect();
        let numbers: Vec<usize> = (1..=shape.cells()).collect();
        let frame = Frame {
            columns: in_order(&shape.variables, &links),
            label: 0,
        };
        Scene {
            names,
            variables: shape.variables.clone(),
            links,
            values: BTreeMap::new(),
            facts: facts_text(&shape.facts, &numbers),
            frame,
            gone: BTreeSet::new(),
            has_paths: true,
            forbidden: Marks::default(),
            changed: Marks::default(),
        }
    }

    /// The picture, with the variables that stand at no cell and the facts below it.
    pub fn figure(&self, words: &str) -> String {
        let picture = match self.is_drawn() {
            true => self.picture().element("cells", words),
            false => String::new(),
        };
        format!("<figure>\n{picture}{}</figure>\n", self.caption())
    }

    /// Whether there is a box to draw.
    fn is_drawn(&self) -> bool {
        let has_box = |cell| self.links.contains_key(cell) || self.gone.contains(cell);
        self.frame.columns.iter().any(has_box)
    }

    /// The class of something that may be marked.
    fn class(&self, part: impl Fn(&Marks) -> bool) -> &'static str {
        match (part(&self.forbidden), part(&self.changed)) {
            (true, _) => "bad",
            (false, true) => "new",
            (false, false) => "plain",
        }
    }

    /// What stands below the picture.
    fn caption(&self) -> String {
        let facts = self.facts.as_ref().map_or(String::new(), |facts| {
            format!("<span class=\"facts\">{}</span>\n", escape(facts))
        });
        let caption = self.chips() + &facts;
        match caption.is_empty() {
            true => caption,
            false => format!("<figcaption>\n{caption}</figcaption>\n"),
        }
    }

    /// Variables at # and *, and where there is nothing at all, that anything is meant.
    fn chips(&self) -> String {
        let mut chips = String::new();
        for (variable, place) in self.variables.iter().enumerate() {
            let place = match place {
                Some(Place::Null) => "null",
                Some(Place::Dangling) => "dangling",
                _ => continue,
            };
            let class = self.class(|marks| marks.variables.contains(&variable));
            let name = escape(&self.names[variable]);
            chips += &format!("<span class=\"chip {class}\"><b>{name}</b> {place}</span>\n");
        }
        if chips.is_empty() && !self.is_drawn() {
            chips = "<span class=\"chip plain\">anything</span>\n".to_string();
        }
        chips
    }

    pub fn picture(&self) -> Picture {
        let mut picture = Picture::default();
        let layout = Layout::of(self);
        for &cell in &self.frame.columns {
            let area = layout.area(cell);
            if self.links.contains_key(&cell) {
                self.draw_box(cell, area, &mut picture);
                self.draw_tags(cell, area, &mut picture);
            } else if self.gone.contains(&cell) {
                picture.labelled(area, "gone", "gone", None);
            }
        }
        self.draw_links(&layout, &mut picture);
        if !self.has_paths {
            // All heaps of a run are as wide, so that they are drawn to the same scale.
            let right = layout.pitch * self.frame.columns.len() as i32;
            picture.reach(right, 0);
        }
        picture
    }

    /// The box with the number of the cell and its value.
    fn draw_box(&self, cell: usize, area: Area, picture: &mut Picture) {
        let class = self.class(|marks| marks.cells.contains(&cell));
        let class = format!("cell {class}");
        let Some(value) = self.values.get(&cell) else {
            return picture.labelled(area, &class, &(cell + 1).to_string(), None);
        };
        let of_value = self.class(|marks| marks.values.contains(&cell));
        let tail = Tail {
            class: &format!("value {of_value}"),
            text: &value.to_string(),
        };
        picture.labelled(area, &class, &ahead_of_value(cell), Some(tail));
    }

    /// The variables at a cell, above its box.
    fn draw_tags(&self, cell: usize, area: Area, picture: &mut Picture) {
        for (row, variable) in self.standing_at(cell).enumerate() {
            let name = &self.names[variable];
            let class = self.class(|marks| marks.variables.contains(&variable));
            let width = width_of(name) + 12;
            let tag = Area {
                x: area.x + (area.width - width) / 2,
                y: area.y - TAG * (row as i32 + 1),
                width,
                height: TAG - 2,
            };
            picture.labelled(tag, &format!("tag {class}"), name, None);
        }
    }

    fn standing_at(&self, cell: usize) -> impl Iterator<Item = usize> + '_ {
        let at = Some(Place::Cell(cell));
        (0..self.names.len()).filter(move |&variable| self.variables[variable] == at)
    }

    fn draw_links(&self, layout: &Layout, picture: &mut Picture) {
        let path = if self.has_paths { " path" } else { "" };
        for (&cell, &place) in &self.links {
            let class = self.class(|marks| marks.links.contains(&cell));
            let class = format!("{class}{path}");
            let (x, y) = layout.dot(cell);
            let end = x + layout.to_end;
            match place {
                None => continue,
                Some(Place::Null) => {
                    picture.arrow(&[(x, y), (end, y)], &class);
                    picture.text(end + 4, y - LINE / 2, "end plain", "#");
                }
                Some(Place::Dangling) => {
                    picture.arrow(&[(x, y), (end, y)], &class);
                    let class = self.class(|marks| marks.links.contains(&cell));
                    picture.text(end + 4, y - LINE / 2, &format!("end {class}"), "*");
                }
                Some(Place::Cell(target)) => {
                    let area = layout.area(target);
                    match layout.lane_of.get(&cell) {
                        None => picture.arrow(&[(x, y), (area.x, y)], &class),
                        Some(&lane) => {
                            let level = area.y + BOX_HEIGHT + LANE * (lane as i32 + 1) + 2;
                            let up = area.x + 14;
                            let bottom = area.y + BOX_HEIGHT;
                            let points = [(x, y), (x, level), (up, level), (up, bottom)];
                            picture.arrow(&points, &class);
                        }
                    }
                }
            }
            picture.dot(x, y, &class);
        }
    }
}

/// Where everything stands.
struct Layout {
    columns: Vec<usize>,
    box_width: i32,
    /// Between the left sides of two boxes.
    pitch: i32,
    /// Left of the first box.
    margin: i32,
    /// The length of an arrow to # or *.
    to_end: i32,
    /// The upper side of the boxes.
    top: i32,
    /// The lanes of the links that run below the boxes.
    lane_of: BTreeMap<usize, usize>,
}

impl Layout {
    fn of(scene: &Scene) -> Layout {
        let widest = scene.names.iter().map(|name| width_of(name)).max();
        let rows = scene
            .links
            .keys()
            .map(|&cell| scene.standing_at(cell).count());
        let columns = scene.frame.columns.clone();
        let Widths { cell, gap, to_end } = match columns.len() > FEW {
            true => NARROW,
            false => WIDE,
        };
        let box_width = cell.max(scene.frame.label + BESIDE_LABEL);
        let pitch = (box_width + gap).max(widest.unwrap_or(0) + 20);
        let mut layout = Layout {
            columns,
            box_width,
            pitch,
            margin: 8 + (pitch - box_width - gap) / 2,
            to_end,
            top: 8 + TAG * rows.max().unwrap_or(0) as i32,
            lane_of: BTreeMap::new(),
        };
        let mut below = Vec::new();
        for (&cell, &place) in &scene.links {
            if let Some(Place::Cell(target)) = place {
                if layout.column(target) != layout.column(cell) + 1 {
                    let (from, to) = (layout.dot(cell).0, layout.area(target).x + 14);
                    below.push((cell, (from.min(to), from.max(to))));
                }
            }
        }
        let intervals: Vec<(i32, i32)> = below.iter().map(|&(_, interval)| interval).collect();
        let cells = below.iter().map(|&(cell, _)| cell);
        layout.lane_of = cells.zip(lanes(&intervals)).collect();
        layout
    }

    fn column(&self, cell: usize) -> i32 {
        let column = self.columns.iter().position(|&other| other == cell);
        column.expect("every cell has a column") as i32
    }

    fn area(&self, cell: usize) -> Area {
        Area {
            x: self.margin + self.pitch * self.column(cell),
            y: self.top,
            width: self.box_width,
            height: BOX_HEIGHT,
        }
    }

    /// Where a cell's link begins.
    fn dot(&self, cell: usize) -> (i32, i32) {
        let area = self.area(cell);
        (area.x + area.width - 10, area.y + BOX_HEIGHT / 2)
    }
}

/// The cells as they are met by following links from the variables, then those that aren't, each
/// run from its first cell on.
fn in_order(variables: &[Option<Place>], links: &BTreeMap<usize, Option<Place>>) -> Vec<usize> {
    let targets: Vec<Place> = links.values().copied().flatten().collect();
    let (inner, outer): (Vec<usize>, Vec<usize>) = links
        .keys()
        .partition(|&&cell| targets.contains(&Place::Cell(cell)));
    let cells = outer.into_iter().chain(inner).map(Place::Cell);
    let mut order = Vec::new();
    for start in variables.iter().copied().flatten().chain(cells) {
        let mut place = Some(start);
        while let Some(Place::Cell(cell)) = place {
            if order.contains(&cell) {
                break;
            }
            order.push(cell);
            place = links[&cell];
        }
    }
    order
}

/// Columns for all cells of a run's heaps, such that most links lead to the next column.
fn columns(heaps: &[Heap]) -> Vec<usize> {
    let all: BTreeSet<usize> = heaps
        .iter()
        .flat_map(|heap| heap.links.keys().copied())
        .collect();
    let candidates = heaps.iter().map(|heap| {
        let scene = Scene::of_heap(heap, &[], &Frame::default());
        let mut order = in_order(&scene.variables, &scene.links);
        let others: Vec<usize> = all
            .iter()
            .copied()
            .filter(|cell| !order.contains(cell))
            .collect();
        order.extend(others);
        order
    });
    let neighbours = |order: &Vec<usize>| -> usize {
        let pairs: Vec<(usize, Place)> = order
            .windows(2)
            .map(|pair| (pair[0], Place::Cell(pair[1])))
            .collect();
        let linked = |heap: &Heap| {
            let is_linked = |(cell, next): &&(usize, Place)| heap.links.get(cell) == Some(next);
            pairs.iter().filter(is_linked).count()
        };
        heaps.iter().map(linked).sum()
    };
    candidates.max_by_key(neighbours).unwrap_or_default()
}

#[cfg(test)]
mod tests {
    use super::*;
    use crate::random::Random;

    fn assert_apart(areas: &[Area], of: &dyn std::fmt::Debug) {
        for (index, area) in areas.iter().enumerate() {
            let mut others = areas[..index].iter();
            assert!(others.all(|other| !area.overlaps(other)), "{of:?}");
        }
    }

    #[test]
    fn nothing_overlaps_in_random_shapes_and_heaps() {
        let mut random = Random::new(0x21_5eed);
        let names = ["x", "a_long_name", "t"].map(str::to_string);
        for _ in 0..500 {
            let cells = random.below(8);
            let mut codes = |count: usize, least: usize| -> Vec<u64> {
                let code = |_| (least + random.below(3 + cells - least)) as u64;
                (0..count).map(code).collect()
            };
            let shape = Shape::of_codes(&codes(3, 0), &codes(cells, 0));
            let areas = Scene::of_shape(&shape, &names).picture().areas;
            assert!(areas.len() >= cells);
            assert_apart(&areas, &shape);

            let mut places = |count| codes(count, 1).into_iter().filter_map(Place::of_code);
            let heap = Heap {
                variables: places(3).collect(),
                links: places(cells).enumerate().collect(),
                values: (0..cells / 2)
                    .map(|cell| (cell, 10usize.pow(2 * cell as u32)))
                    .collect(),
            };
            let frame = Frame::of(std::slice::from_ref(&heap));
            let areas = Scene::of_heap(&heap, &names, &frame).picture().areas;
            assert!(areas.len() >= cells);
            assert_apart(&areas, &heap);
        }
    }

    /// However long a value is, it stands in its box, and all heaps of a run are as wide.
    #[test]
    fn boxes_hold_their_values() {
        let heap = |values: BTreeMap<usize, usize>| Heap {
            variables: vec![Place::Cell(9)],
            links: [(9, Place::Null)].into(),
            values,
        };
        let heaps = [heap([].into()), heap([(9, 65_535)].into())];
        let frame = Frame::of(&heaps);
        let names = ["x".to_string()];
        let [without, with] = heaps.map(|heap| {
            let mut scene = Scene::of_heap(&heap, &names, &frame);
            scene.changed.values.insert(9);
            scene.picture()
        });
        let width = width_of("10: 65535") + BESIDE_LABEL;
        assert_eq!(with.areas[0].width, width);
        assert_eq!(without.areas, with.areas);
        let label = format!(
            "textLength=\"{}\" lengthAdjust=\"spacingAndGlyphs\">10: <tspan class=\"value \
             new\">65535</tspan></text>",
            width_of("10: 65535")
        );
        assert!(with.element("cells", "").contains(&label));
    }

    #[test]
    fn facts_stand_below() {
        use crate::reference::facts::Fact;
        let facts = vec![Fact::below(1, 0)];
        let names = ["x".to_string()];
        let figure = |codes: &[u64]| {
            let shape = Shape::of_codes(codes, &[4, 0]).with_facts(facts.clone());
            Scene::of_shape(&shape, &names).figure("")
        };
        let line = "<span class=\"facts\">2 &lt; 1</span>\n</figcaption>\n";
        let at_null = "<span class=\"chip plain\"><b>x</b> null</span>\n";
        assert!(figure(&[3]).contains(&format!("<figcaption>\n{line}")));
        assert!(figure(&[1]).contains(&format!("<figcaption>\n{at_null}{line}")));
    }

    #[test]
    fn columns_follow_the_links() {
        use Place::{Cell, Null};
        let heap = |links: &[(usize, Place)]| Heap {
            variables: vec![Cell(links[0].0)],
            links: links.iter().copied().collect(),
            values: Default::default(),
        };
        let heaps = [
            heap(&[(0, Null)]),
            heap(&[(1, Cell(0)), (0, Null)]),
            heap(&[(2, Cell(1)), (1, Cell(0)), (0, Null)]),
        ];
        assert_eq!(columns(&heaps), [2, 1, 0]);
    }
}

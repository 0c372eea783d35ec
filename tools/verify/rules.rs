//! Rule files and report lines in plain Rust, for the checker of fills and the benchmarks alone. It takes sound inputs for granted.
#![allow(dead_code)] // no benchmark uses all of it

use crate::sweep::{Rect, Windows};
use std::collections::HashMap;
use std::io::Write;

/// A layer and its data type.
pub type On = (u16, u16);

/// The values of a rule file by their keys, and the layers of the keys that may stand several times.
pub struct Rules {
    values: HashMap<String, String>,
    also: Vec<(String, On)>,
}

impl Rules {
    pub fn read(path: &str) -> Rules {
        let text = std::fs::read_to_string(path).expect("the rules");
        let mut rules = Rules { values: HashMap::new(), also: Vec::new() };
        for (key, value) in text.lines().filter_map(|line| line.split_once(',')) {
            if key.starts_with("also_") {
                let (layer, data_type) = value.split_once('/').expect("a layer");
                rules.also.push((key.to_string(), (layer.parse().expect("a layer"), data_type.parse().expect("a data type"))));
            } else {
                rules.values.insert(key.to_string(), value.to_string());
            }
        }
        rules
    }

    /// These rules, with the values that another file has.
    pub fn with(&self, path: &str) -> Rules {
        let mut values = self.values.clone();
        values.extend(Rules::read(path).values);
        Rules { values, also: self.also.clone() }
    }

    pub fn key(&self, name: &str) -> i32 {
        self.values[name].parse().expect("a number")
    }

    pub fn key_or(&self, name: &str, otherwise: i32) -> i32 {
        self.values.get(name).map_or(otherwise, |value| value.parse().expect("a number"))
    }

    pub fn text(&self, name: &str) -> &[u8] {
        self.values[name].as_bytes()
    }

    pub fn layer(&self) -> On {
        (self.key("layer") as u16, self.key("datatype") as u16)
    }

    fn also<'a>(&'a self, key: &'a str) -> impl Iterator<Item = On> + 'a {
        self.also.iter().filter(move |(own, _)| own == key).map(|(_, on)| *on)
    }

    pub fn metal(&self) -> Vec<On> {
        std::iter::once(self.layer()).chain(self.also("also_metal")).collect()
    }

    pub fn existing_fill(&self) -> Vec<On> {
        self.also("also_fill").collect()
    }

    pub fn keep_outs(&self) -> Vec<On> {
        let has_any = self.values.contains_key("keep_layer");
        let first = has_any.then(|| (self.key("keep_layer") as u16, self.key("keep_datatype") as u16));
        first.into_iter().chain(self.also("also_keep")).collect()
    }

    pub fn frame(&self) -> Rect {
        let [x1, y1, x2, y2] = ["frame_x1", "frame_y1", "frame_x2", "frame_y2"].map(|name| self.key(name));
        Rect { x1, y1, x2, y2 }
    }

    /// The frame, where what lies beside it doesn't count.
    pub fn clip(&self) -> Option<Rect> {
        self.values.get("padding").is_some_and(|padding| padding == "ignore").then(|| self.frame())
    }

    pub fn windows(&self) -> Windows {
        Windows {
            origin: (self.key("win_x"), self.key("win_y")),
            size: (self.key("win_w"), self.key("win_h")),
            step: (self.key("win_step_x"), self.key("win_step_y")),
            columns: self.key("win_nx") as usize,
            rows: self.key("win_ny") as usize,
        }
    }
}

/// What the lines of a report need of the rules.
pub struct Lines {
    pub windows: Windows,
    least: i64,
    most: i64,
    clip: Option<Rect>,
}

impl Lines {
    pub fn of(rules: &Rules) -> Lines {
        Lines { windows: rules.windows(), least: rules.key("min").into(), most: rules.key("max").into(), clip: rules.clip() }
    }

    /// The edges of a window.
    fn edges(&self, k: usize) -> Rect {
        let Windows { origin, size, step, columns, .. } = self.windows;
        let (x1, y1) = (origin.0 + (k % columns) as i32 * step.0, origin.1 + (k / columns) as i32 * step.1);
        Rect { x1, y1, x2: x1 + size.0, y2: y1 + size.1 }
    }

    /// How many squares of a window count.
    fn counted(&self, k: usize) -> i64 {
        let Rect { x1, y1, x2, y2 } = self.edges(k);
        let clip = self.clip.unwrap_or(Rect { x1, y1, x2, y2 });
        let length = |low: i32, high: i32| (i64::from(high) - i64::from(low)).max(0);
        length(x1.max(clip.x1), x2.min(clip.x2)) * length(y1.max(clip.y1), y2.min(clip.y2))
    }

    /// Whether a window with so much metal is low.
    pub fn is_low(&self, k: usize, area: i64) -> bool {
        area * 1_000_000 < self.least * self.counted(k)
    }

    /// Writes the line of a window.
    pub fn put(&self, k: usize, drawn: i64, fill: i64, out: &mut Vec<u8>) {
        let (a, b) = (k % self.windows.columns, k / self.windows.columns);
        let (Rect { x1, y1, x2, y2 }, counted, total) = (self.edges(k), self.counted(k), drawn + fill);
        let state = match total * 1_000_000 {
            share if share < self.least * counted => "LOW",
            share if share > self.most * counted => "HIGH",
            _ => "OK",
        };
        let share = total * 1_000_000 / counted.max(1);
        writeln!(out, "{a},{b},{x1},{y1},{x2},{y2},{drawn},{fill},{total},{share},{state}").expect("memory");
    }
}

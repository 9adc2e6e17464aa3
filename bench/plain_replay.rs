//! What replaying a log looks like in ordinary Rust, without contracts: the bar for the time of the proved program.
//! It reads the events, sorts them by stamp, folds them over a hashed map, and prints the drawing. It checks what a careful
//! decoder would, and not all that a log must obey.
use std::cmp::Reverse;
use std::collections::HashMap;
use std::io::{BufWriter, Read, Write};
use std::process::ExitCode;

/// By clock, then by site.
type Stamp = (u64, u8);

const KINDS: [&str; 4] = ["rect", "ellipse", "line", "text"];

/// Where an object is in the stack, from bottom to top.
#[derive(Clone, Copy, PartialEq, Eq, PartialOrd, Ord)]
enum Rank {
    /// Put there by a lower: the later, the lower.
    Low(Reverse<Stamp>),
    /// By what made it, or by a raise.
    High(Stamp),
}

#[derive(Clone, Copy)]
struct Link {
    parent: Stamp,
    dx: i32,
    dy: i32,
}

struct Object {
    /// From 1 to 4, or 5 for a group.
    kind: u8,
    x: i32,
    y: i32,
    width: i32,
    height: i32,
    stroke: u32,
    fill: Option<u32>,
    line: u32,
    label: String,
    link: Option<Link>,
    is_dissolved: bool,
    rank: Rank,
}

impl Object {
    fn new(kind: u8, label: String, stamp: Stamp) -> Self {
        Object {
            kind,
            x: 0,
            y: 0,
            width: 0,
            height: 0,
            stroke: 0,
            fill: None,
            line: 1,
            label,
            link: None,
            is_dissolved: false,
            rank: Rank::High(stamp),
        }
    }

    fn is_group(&self) -> bool {
        self.kind == 5
    }
}

enum Style {
    Stroke(u32),
    Fill(Option<u32>),
    Width(u32),
}

enum Operation {
    Create { kind: u8, x: i32, y: i32, width: i32, height: i32, label: String },
    Delete(Stamp),
    Move(Stamp, i32, i32),
    Resize(Stamp, i32, i32),
    Restyle(Stamp, Style),
    Retext(Stamp, String),
    Group(Vec<(Stamp, i32, i32)>),
    Ungroup(Stamp),
    Raise(Stamp),
    Lower(Stamp),
}

struct Bytes<'a>(&'a [u8]);

impl<'a> Bytes<'a> {
    fn take(&mut self, count: usize) -> Option<&'a [u8]> {
        let (front, rest) = self.0.split_at_checked(count)?;
        self.0 = rest;
        Some(front)
    }

    fn byte(&mut self) -> Option<u8> {
        Some(self.take(1)?[0])
    }

    fn signed(&mut self) -> Option<i32> {
        Some(i32::from_be_bytes(self.take(4)?.try_into().ok()?))
    }

    fn word(&mut self) -> Option<u32> {
        Some(u32::from_be_bytes(self.take(4)?.try_into().ok()?))
    }

    fn stamp(&mut self) -> Option<Stamp> {
        let bytes = self.take(7)?;
        let mut clock = [0; 8];
        clock[2..].copy_from_slice(&bytes[..6]);
        Some((u64::from_be_bytes(clock), bytes[6]))
    }

    fn label(&mut self) -> Option<String> {
        let length = self.byte()?;
        let text = std::str::from_utf8(self.take(length as usize)?).ok()?;
        Some(text.to_string())
    }

    fn style(&mut self) -> Option<Style> {
        match (self.byte()?, self.word()?) {
            (1, colour) => Some(Style::Stroke(colour)),
            (2, u32::MAX) => Some(Style::Fill(None)),
            (2, colour) => Some(Style::Fill(Some(colour))),
            (3, width) => Some(Style::Width(width)),
            _ => None,
        }
    }

    fn operation(&mut self) -> Option<Operation> {
        Some(match self.byte()? {
            1 => Operation::Create {
                kind: self.byte().filter(|kind| (1..=4).contains(kind))?,
                x: self.signed()?,
                y: self.signed()?,
                width: self.signed()?,
                height: self.signed()?,
                label: self.label()?,
            },
            2 => Operation::Delete(self.stamp()?),
            3 => Operation::Move(self.stamp()?, self.signed()?, self.signed()?),
            4 => Operation::Resize(self.stamp()?, self.signed()?, self.signed()?),
            5 => Operation::Restyle(self.stamp()?, self.style()?),
            6 => Operation::Retext(self.stamp()?, self.label()?),
            7 => {
                let count = self.byte()?;
                let members = (0..count).map(|_| Some((self.stamp()?, self.signed()?, self.signed()?)));
                Operation::Group(members.collect::<Option<_>>()?)
            }
            8 => Operation::Ungroup(self.stamp()?),
            9 => Operation::Raise(self.stamp()?),
            10 => Operation::Lower(self.stamp()?),
            _ => return None,
        })
    }
}

fn events(bytes: &[u8]) -> Option<Vec<(Stamp, Operation)>> {
    let mut bytes = Bytes(bytes);
    if bytes.take(4)? != b"GDOL" {
        return None;
    }
    let has_checks = bytes.byte()? == 7;
    bytes.take(6)?;
    let mut events = Vec::new();
    while let Some(0xC3) = bytes.byte() {
        let stamp = bytes.stamp()?;
        bytes.take(2)?;
        events.push((stamp, bytes.operation()?));
        if has_checks {
            bytes.take(4)?;
        }
    }
    Some(events)
}

type Drawing = HashMap<Stamp, Object>;

fn restyle(object: &mut Object, style: Style) {
    match style {
        Style::Stroke(colour) => object.stroke = colour,
        Style::Fill(fill) => object.fill = fill,
        Style::Width(width) => object.line = width,
    }
}

fn group(drawing: &mut Drawing, stamp: Stamp, members: Vec<(Stamp, i32, i32)>) {
    if drawing.contains_key(&stamp) {
        return;
    }
    for (id, dx, dy) in members {
        if let Some(object) = drawing.get_mut(&id) {
            object.link = Some(Link { parent: stamp, dx, dy });
        }
    }
    drawing.insert(stamp, Object::new(5, String::new(), stamp));
}

fn shape(drawing: &mut Drawing, id: Stamp) -> Option<&mut Object> {
    drawing.get_mut(&id).filter(|object| !object.is_group())
}

fn apply(drawing: &mut Drawing, stamp: Stamp, operation: Operation) {
    match operation {
        Operation::Create { kind, x, y, width, height, label } => {
            drawing.entry(stamp).or_insert_with(|| Object { x, y, width, height, ..Object::new(kind, label, stamp) });
        }
        Operation::Delete(id) => {
            drawing.remove(&id);
        }
        Operation::Move(id, x, y) => {
            if let Some(object) = drawing.get_mut(&id) {
                (object.x, object.y) = (x, y);
            }
        }
        Operation::Resize(id, width, height) => {
            if let Some(object) = shape(drawing, id) {
                (object.width, object.height) = (width, height);
            }
        }
        Operation::Restyle(id, style) => {
            if let Some(object) = shape(drawing, id) {
                restyle(object, style);
            }
        }
        Operation::Retext(id, label) => {
            if let Some(object) = shape(drawing, id) {
                object.label = label;
            }
        }
        Operation::Group(members) => group(drawing, stamp, members),
        Operation::Ungroup(id) => {
            if let Some(object) = drawing.get_mut(&id).filter(|object| object.is_group()) {
                object.is_dissolved = true;
            }
        }
        Operation::Raise(id) => {
            if let Some(object) = drawing.get_mut(&id) {
                object.rank = Rank::High(stamp);
            }
        }
        Operation::Lower(id) => {
            if let Some(object) = drawing.get_mut(&id) {
                object.rank = Rank::Low(Reverse(stamp));
            }
        }
    }
}

/// An object where it is shown.
struct Item<'a> {
    id: Stamp,
    parent: Option<Stamp>,
    x: i64,
    y: i64,
    object: &'a Object,
}

fn item<'a>(drawing: &Drawing, id: Stamp, object: &'a Object) -> Option<Item<'a>> {
    let (mut x, mut y) = (i64::from(object.x), i64::from(object.y));
    let (mut parent, mut link) = (None, object.link);
    while let Some(at) = link {
        let group = drawing.get(&at.parent)?;
        x += i64::from(at.dx) + i64::from(group.x);
        y += i64::from(at.dy) + i64::from(group.y);
        if parent.is_none() && !group.is_dissolved {
            parent = Some(at.parent);
        }
        link = group.link;
    }
    (!(object.is_group() && object.is_dissolved)).then_some(Item { id, parent, x, y, object })
}

fn write_item(out: &mut impl Write, item: &Item) -> std::io::Result<()> {
    let object = item.object;
    let kind = KINDS.get(usize::from(object.kind) - 1).unwrap_or(&"group");
    write!(out, "{kind} {}.{} in ", item.id.0, item.id.1)?;
    match item.parent {
        None => write!(out, "-")?,
        Some((clock, site)) => write!(out, "{clock}.{site}")?,
    }
    write!(out, " at {} {}", item.x, item.y)?;
    if !object.is_group() {
        write!(out, " size {} {} stroke {:06X} fill ", object.width, object.height, object.stroke)?;
        match object.fill {
            None => write!(out, "none")?,
            Some(colour) => write!(out, "{colour:06X}")?,
        }
        write!(out, " width {}", object.line)?;
        if !object.label.is_empty() {
            write!(out, " text {}", object.label)?;
        }
    }
    writeln!(out)
}

fn print(drawing: &Drawing) -> std::io::Result<()> {
    let mut objects: Vec<(&Stamp, &Object)> = drawing.iter().collect();
    objects.sort_by_key(|(id, object)| (object.rank, **id));
    let mut members: HashMap<Option<Stamp>, Vec<Item>> = HashMap::new();
    for item in objects.into_iter().filter_map(|(id, object)| item(drawing, *id, object)) {
        members.entry(item.parent).or_default().push(item);
    }
    let mut out = BufWriter::new(std::io::stdout().lock());
    let (mut stack, mut count) = (vec![(None, 0)], 0);
    while let Some((parent, next)) = stack.pop() {
        let Some(item) = members.get(&parent).and_then(|items| items.get(next)) else { continue };
        write_item(&mut out, item)?;
        count += 1;
        stack.push((parent, next + 1));
        stack.push((Some(item.id), 0));
    }
    writeln!(out, "end {count}")?;
    out.flush()
}

fn main() -> ExitCode {
    let mut bytes = Vec::new();
    if std::io::stdin().read_to_end(&mut bytes).is_err() {
        return ExitCode::from(4);
    }
    let Some(mut events) = events(&bytes) else {
        println!("bad log");
        return ExitCode::from(3);
    };
    events.sort_by_key(|event| event.0);
    let mut drawing = HashMap::new();
    for (stamp, operation) in events {
        apply(&mut drawing, stamp, operation);
    }
    match print(&drawing) {
        Ok(()) => ExitCode::SUCCESS,
        Err(_) => ExitCode::from(5),
    }
}

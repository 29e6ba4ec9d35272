//! One run: the live handles, and the answer to each line.

use std::{
    collections::{BTreeMap, BTreeSet},
    io::{Result, Write},
};

use boa_gc::kept;

use crate::{
    calls::{self, Answer},
    image::Image,
    line::{self, Call, CallKind, Line},
    object::{
        prototype_number,
        shape::{
            Shape, SharedShape,
            shared_shape::template::{
                entries,
                inside::{self, slot_text},
                kept_tables, load, previous, transition_count,
            },
        },
    },
    property::PropertyKey,
    refusal::Refusal,
};

pub struct Options {
    /// Make the calls too that the rules refuse, and catch their panics.
    pub catch: bool,
    /// Say of a shape only what a step runner can say of it.
    pub brief: bool,
}

pub struct Run<W> {
    out: W,
    options: Options,
    live: BTreeMap<u32, Shape>,
    last_handle: u32,
    /// Every good key of the run so far, asked for in each shape.
    keys: BTreeSet<u32>,
    /// Shapes of a loaded image with more holds than handles.
    pinned: Vec<Shape>,
    /// Since an image was loaded: what is inside the shapes is shown too.
    loaded: bool,
    pub lookups_agree: bool,
}

/// A held shape of a loaded image has as many handles as holds, and at most this many.
const MOST_HANDLES: u32 = 2;

/// Whether the run goes on after a line.
#[derive(PartialEq, Eq)]
pub enum Next {
    GoOn,
    Panicked,
}

impl<W: Write> Run<W> {
    pub fn new(out: W, options: Options) -> Self {
        Self {
            out,
            options,
            live: BTreeMap::new(),
            last_handle: 0,
            keys: BTreeSet::new(),
            pinned: Vec::new(),
            loaded: false,
            lookups_agree: true,
        }
    }

    pub fn answer(&mut self, bytes: &[u8]) -> Result<Next> {
        match line::parse(bytes) {
            None => self.refuse(Refusal::BadLine)?,
            Some(Line::Root) => self.grant(SharedShape::root().into(), 0)?,
            Some(Line::Unique) => self.grant(Shape::default(), 0)?,
            Some(Line::Call(call)) => return self.answer_call(call),
            Some(Line::Release { handle }) => match self.live.remove(&handle) {
                Some(_) => writeln!(self.out, "released {handle}")?,
                None => self.refuse(Refusal::NoShape)?,
            },
            Some(Line::Hold { handle }) => {
                self.answer_question(handle, |shape| Some(shape.clone()))?
            }
            Some(Line::Previous { handle }) => self.answer_question(handle, previous)?,
            Some(Line::Sweep) => self.sweep()?,
            Some(Line::ShowLive) => self.show_live()?,
            Some(Line::NewRun) => self.new_run()?,
            Some(Line::Load(image)) => self.load(&image)?,
        }
        Ok(Next::GoOn)
    }

    /// After the last line.
    pub fn finish(&mut self) -> Result<()> {
        self.check_all()?;
        self.out.flush()
    }

    /// Tables are shared, so a step may spoil a shape that was right before.
    fn check_all(&mut self) -> Result<()> {
        let live = self.live.clone();
        live.iter()
            .try_for_each(|(handle, shape)| self.check_lookups(*handle, shape))
    }

    fn answer_call(&mut self, call: Call) -> Result<Next> {
        self.note_key(call.kind);
        match calls::make(&call, self.live.get(&call.handle), self.options.catch) {
            Answer::Shape { shape, action } => self.grant(shape, action)?,
            Answer::Refused(refusal) => self.refuse(refusal)?,
            Answer::Panicked(message) => {
                writeln!(self.out, "panic: {message}")?;
                return Ok(Next::Panicked);
            }
        }
        Ok(Next::GoOn)
    }

    /// Grants a shape that is there already, if there is one.
    fn answer_question(
        &mut self,
        handle: u32,
        wanted: impl Fn(&Shape) -> Option<Shape>,
    ) -> Result<()> {
        match self.live.get(&handle).map(wanted) {
            Some(Some(shape)) => self.grant(shape, 0),
            Some(None) => writeln!(self.out, "none"),
            None => self.refuse(Refusal::NoShape),
        }
    }

    fn note_key(&mut self, kind: CallKind) {
        if let CallKind::Insert { key, .. }
        | CallKind::Change { key, .. }
        | CallKind::Remove { key } = kind
            && PropertyKey::from_number(key).is_some()
        {
            self.keys.insert(key);
        }
    }

    fn grant(&mut self, shape: Shape, action: u8) -> Result<()> {
        let handle = self.give(shape.clone());
        self.show(handle, &shape, action)
    }

    fn give(&mut self, shape: Shape) -> u32 {
        self.last_handle += 1;
        self.live.insert(self.last_handle, shape);
        self.last_handle
    }

    /// The shapes of an image, with handles for those that are held. Only at the beginning of a run.
    fn load(&mut self, image: &Image) -> Result<()> {
        self.loaded = true;
        self.keys.extend(image.keys());
        for (shape, holds) in load::load(image) {
            for _ in 0..holds.min(MOST_HANDLES) {
                self.give(shape.clone());
            }
            if holds > MOST_HANDLES {
                self.pinned.push(shape);
            }
        }
        self.show_live()
    }

    fn refuse(&mut self, refusal: Refusal) -> Result<()> {
        writeln!(self.out, "refused {}", refusal as u8)
    }

    fn sweep(&mut self) -> Result<()> {
        let (shapes, tables) = freed_by_a_sweep();
        writeln!(self.out, "swept {shapes} {tables}")
    }

    /// Nothing is left of the run so far. What no handle could release is not counted.
    fn new_run(&mut self) -> Result<()> {
        self.check_all()?;
        self.live.clear();
        self.last_handle = 0;
        self.keys.clear();
        let (shapes, tables) = freed_by_a_sweep();
        self.loaded = false;
        self.pinned.clear();
        kept::sweep();
        writeln!(self.out, "ended {shapes} {tables}")
    }

    fn show_live(&mut self) -> Result<()> {
        let live = self.live.clone();
        writeln!(self.out, "live {}", live.len())?;
        live.iter()
            .try_for_each(|(handle, shape)| self.show(*handle, shape, 0))
    }

    fn show(&mut self, handle: u32, shape: &Shape, action: u8) -> Result<()> {
        let count = transition_count(shape);
        let same = self.same_shape_before(handle, shape);
        if self.options.brief {
            return writeln!(
                self.out,
                "shape {handle} count {count} action {action} same {same}"
            );
        }
        let form = if shape.is_shared() {
            "shared"
        } else {
            "unique"
        };
        let proto = prototype_number(&shape.prototype());
        let entries = inside::entries_text(&entries(shape));
        let keys = inside::list(shape.keys().iter().map(|key| key.number().to_string()));
        writeln!(
            self.out,
            "shape {handle} {form} count {count} action {action} proto {proto} same {same} \
             entries {entries} keys {keys}"
        )?;
        if self.loaded {
            for line in inside::trail(shape) {
                writeln!(self.out, "  {line}")?;
            }
        }
        self.check_lookups(handle, shape)
    }

    /// The lowest live handle before `handle` of this very shape, or 0.
    fn same_shape_before(&self, handle: u32, shape: &Shape) -> u32 {
        let address = shape.to_addr_usize();
        self.live
            .range(..handle)
            .find(|(_, other)| other.to_addr_usize() == address)
            .map_or(0, |(other, _)| *other)
    }

    fn check_lookups(&mut self, handle: u32, shape: &Shape) -> Result<()> {
        let entries: BTreeMap<u32, _> = entries(shape)
            .into_iter()
            .map(|(key, slot)| (key.number(), slot))
            .collect();
        for number in &self.keys {
            let key = PropertyKey::from_number(*number).expect("only good keys are noted");
            let answer = shape.lookup(&key);
            let entry = entries.get(number).copied();
            if answer != entry {
                self.lookups_agree = false;
                writeln!(
                    self.out,
                    "error: shape {handle} key {number} lookup {} entry {}",
                    slot_text(answer),
                    slot_text(entry)
                )?;
            }
        }
        Ok(())
    }
}

/// How many shapes, and how many tables.
fn freed_by_a_sweep() -> (usize, usize) {
    let tables = kept_tables();
    let shapes_freed = kept::sweep();
    (shapes_freed, tables - kept_tables())
}

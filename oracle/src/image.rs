//! A sound image of document 01, read from the words of a line `L`.

use crate::line::number;

// Where the header's words stand.
const SHAPES: usize = 0;
const KEYS_PER_TABLE: usize = 2;
const EDGES: usize = 3;
const SHAPES_AT: usize = 4;
const TABLES_AT: usize = 5;
const EDGES_AT: usize = 6;

const HEADER_WORDS: usize = 8;
const SHAPE_WORDS: usize = 10;
const ENTRY_WORDS: usize = 3;
const EDGE_WORDS: usize = 5;

pub struct Image {
    words: Vec<u32>,
}

pub struct ShapeRecord {
    pub place: u32,
    pub is_unique: bool,
    pub holds: u32,
    pub previous: u32,
    pub kind: u32,
    pub transition_count: u16,
    pub property_count: u32,
    pub prototype: u32,
    pub table: u32,
    pub counters: [u8; 2],
}

pub struct EdgeRecord {
    pub parent: u32,
    pub is_prototype: bool,
    pub key: u32,
    pub attributes: u8,
    pub child: u32,
}

impl Image {
    /// How many words there are, and those that are not 0, each after its place and a colon. No words are an image in
    /// which there is nothing.
    pub fn parse(text: &[u8]) -> Option<Self> {
        let mut parts = text.split(|byte| *byte == b' ');
        let count = number(parts.next()?)? as usize;
        let mut words = vec![0; count.max(HEADER_WORDS)];
        for part in parts {
            let colon = part.iter().position(|byte| *byte == b':')?;
            let place = number(&part[..colon])? as usize;
            *words.get_mut(place)? = number(&part[colon + 1..])?;
        }
        Some(Self { words })
    }

    /// By rising place.
    pub fn shapes(&self) -> Vec<ShapeRecord> {
        let records = self.records(SHAPES_AT, SHAPES, SHAPE_WORDS);
        let used = (1..).zip(records).filter(|(_, record)| record[0] != 0);
        used.map(|(place, record)| shape_record(place, record))
            .collect()
    }

    /// The entries of a table that is in use: each key with its attributes.
    pub fn table(&self, place: u32) -> Vec<(u32, u8)> {
        let size = 1 + ENTRY_WORDS * self.words[KEYS_PER_TABLE] as usize;
        let at = self.words[TABLES_AT] as usize + (place as usize - 1) * size;
        let entries = self.words[at + 1..at + size].chunks(ENTRY_WORDS);
        let used = self.words[at] as usize - 1;
        entries
            .take(used)
            .map(|entry| (entry[0], entry[1] as u8))
            .collect()
    }

    pub fn edges(&self) -> Vec<EdgeRecord> {
        let records = self.records(EDGES_AT, EDGES, EDGE_WORDS);
        records
            .filter(|record| record[0] != 0)
            .map(edge_record)
            .collect()
    }

    /// Every key of a table or edge in use.
    pub fn keys(&self) -> Vec<u32> {
        let tables = self
            .shapes()
            .into_iter()
            .flat_map(|shape| self.table(shape.table));
        let edges = self.edges().into_iter().filter(|edge| !edge.is_prototype);
        tables
            .map(|(key, _)| key)
            .chain(edges.map(|edge| edge.key))
            .collect()
    }

    fn records(&self, at: usize, count: usize, size: usize) -> impl Iterator<Item = &[u32]> {
        let start = self.words[at] as usize;
        self.words[start..start + self.words[count] as usize * size].chunks(size)
    }
}

fn shape_record(place: u32, record: &[u32]) -> ShapeRecord {
    ShapeRecord {
        place,
        is_unique: record[0] == 2,
        holds: record[1],
        previous: record[2],
        kind: record[3],
        transition_count: record[4] as u16,
        property_count: record[5],
        prototype: record[6],
        table: record[7],
        counters: [record[8] as u8, record[9] as u8],
    }
}

fn edge_record(record: &[u32]) -> EdgeRecord {
    EdgeRecord {
        parent: record[0],
        is_prototype: record[1] == 1,
        key: record[2],
        attributes: record[3] as u8,
        child: record[4],
    }
}

//! The shapes of a drawing by the numbers of a sheet's names, and what a block of lines has of them.

use crate::drawing::{Drawing, Fault, Line, Solid};
use kressedach::{cross_balls_into, cross_many_into, LineLists, LineRefusal, Lines, ManyLists, Refusal, Shape, ShapeLists};
use std::sync::Mutex;

/// Half-spaces and boxes as the library takes them, and balls; with each the number of its name and its place in the drawing.
pub struct Solids<'a> {
    drawing: &'a Drawing,
    names: usize,
    kinds: Vec<u8>,
    numbers: Vec<f64>,
    plain: Vec<Place>,
    balls: Vec<([i64; 3], i64)>,
    ball_places: Vec<Place>,
    /// Whether it is said first of a line that it fits no ball, where the library refuses it too.
    balls_first: bool,
}

/// The number of a shape's name, and its place in the drawing.
#[derive(Clone, Copy)]
struct Place {
    name: usize,
    drawn: usize,
}

/// What a block of lines has of the shapes, as `classify_into` takes it: lines are numbered by their places in the block.
#[derive(Default)]
pub struct Block {
    rows: Vec<u8>,
    /// The first of these entries; the others are room.
    lists: Lists,
    crossings: usize,
    /// The lines as the library takes them.
    numbers: Vec<f64>,
    /// The start rows of half-spaces and boxes, where some name has neither.
    narrow: Vec<u8>,
}

/// The crossings: on a line by rising position, at one position by rising number.
#[derive(Default)]
struct Lists {
    lines: Vec<u32>,
    positions: Vec<i32>,
    shapes: Vec<u16>,
}

impl Block {
    pub fn lines(&self) -> Lines<'_> {
        let (lists, all) = (&self.lists, ..self.crossings);
        Lines { rows: &self.rows, lines: &lists.lines[all], positions: &lists.positions[all], shapes: &lists.shapes[all] }
    }
}

/// Blocks whose memory is used again, as many as there are threads.
#[derive(Default)]
pub struct Spare(Mutex<Vec<Block>>);

impl Spare {
    pub fn lend<R>(&self, job: impl FnOnce(&mut Block) -> R) -> R {
        let spare = || self.0.lock().expect("no thread panics here");
        let mut block = spare().pop().unwrap_or_default();
        let given = job(&mut block);
        spare().push(block);
        given
    }
}

impl<'a> Solids<'a> {
    /// The drawing's shapes, of which the k-th has the k-th of these as its name's number, among so many.
    pub fn of(drawing: &'a Drawing, numbers: impl Iterator<Item = usize>, names: usize) -> Solids<'a> {
        let (kinds, numbers_of, plain, balls, ball_places) = (vec![], vec![], vec![], vec![], vec![]);
        let mut solids = Solids { drawing, names, kinds, numbers: numbers_of, plain, balls, ball_places, balls_first: false };
        let mut places: Vec<Place> = numbers.enumerate().map(|(drawn, name)| Place { name, drawn }).collect();
        places.sort_by_key(|place| place.name);
        for place in places {
            match &drawing.solids[place.drawn] {
                Solid::Plain(shape) => {
                    let (kind, numbers) = shape.parts();
                    solids.kinds.push(kind);
                    solids.numbers.extend(numbers);
                    solids.plain.push(place);
                }
                Solid::Ball { centre, radius } => {
                    solids.balls.push((*centre, *radius));
                    solids.ball_places.push(place);
                }
            }
        }
        solids
    }

    /// The drawing's shapes by their places in it. Of a line it is said first that it fits no ball.
    pub fn as_drawn(drawing: &'a Drawing) -> Solids<'a> {
        let shapes = drawing.solids.len();
        Solids { balls_first: true, ..Solids::of(drawing, 0..shapes, shapes) }
    }

    /// The half-spaces and boxes, with the number of each one's name.
    pub fn plain(&self) -> Vec<(u16, Shape)> {
        let shape = |place: &Place| match self.drawing.solids[place.drawn] {
            Solid::Plain(shape) => Some((place.name as u16, shape)),
            Solid::Ball { .. } => None,
        };
        self.plain.iter().filter_map(shape).collect()
    }

    fn lists(&self) -> ShapeLists<'_> {
        ShapeLists { kinds: &self.kinds, numbers: &self.numbers }
    }

    /// The start rows and crossings of a block of lines.
    pub fn cross(&self, lines: &[Line], block: &mut Block) -> Result<(), Fault> {
        let named = self.plain.len() == self.names;
        block.numbers.clear();
        block.numbers.extend(lines.iter().flat_map(|line| line.probe.numbers()));
        let rows = if named { &mut block.rows } else { &mut block.narrow };
        rows.resize(lines.len() * self.plain.len(), 0);
        let Lists { lines: on, positions, shapes } = &mut block.lists;
        // two crossings a shape and line are always enough
        make_room(on, 2 * rows.len());
        make_room(positions, 2 * rows.len());
        make_room(shapes, 2 * rows.len());
        let mut lists = ManyLists { rows, lines: on, positions, shapes };
        let crossed = cross_many_into(&block.numbers, self.lists(), &mut lists);
        block.crossings = crossed.map_err(|refused| self.first_fault(lines, refused))?.crossings;
        if !named {
            self.widen(block);
        }
        match self.balls.is_empty() {
            true => Ok(()),
            false => self.put_balls(lines, block),
        }
    }

    /// Numbers half-spaces and boxes by their names, and gives the others a place in the rows.
    fn widen(&self, block: &mut Block) {
        let Block { rows, narrow, lists, crossings, numbers } = block;
        rows.clear();
        rows.resize(numbers.len() / 6 * self.names, 0);
        if !self.plain.is_empty() {
            for (row, narrow) in rows.chunks_exact_mut(self.names).zip(narrow.chunks_exact(self.plain.len())) {
                self.plain.iter().zip(narrow).for_each(|(place, start)| row[place.name] = *start);
            }
        }
        for shape in &mut lists.shapes[..*crossings] {
            *shape = self.plain[usize::from(*shape)].name as u16;
        }
    }

    /// Puts the crossings of balls among those that are there.
    fn put_balls(&self, lines: &[Line], block: &mut Block) -> Result<(), Fault> {
        let (mut all, mut room, mut at) = (Lists::default(), Room::of(self.balls.len()), 0);
        for (k, line) in lines.iter().enumerate() {
            let mut on = self.balls_on(line, &mut room)?;
            let plain = block.lines().lines[at..].iter().take_while(|line| **line as usize == k).count();
            on.extend((at..at + plain).map(|at| (block.lists.positions[at], block.lists.shapes[at])));
            on.sort_unstable();
            at += plain;
            all.lines.extend(on.iter().map(|_| k as u32));
            all.positions.extend(on.iter().map(|(position, _)| position));
            all.shapes.extend(on.iter().map(|(_, shape)| shape));
        }
        block.crossings = all.lines.len();
        block.lists = all;
        Ok(())
    }

    /// The crossings of balls on a line; it starts in none of them.
    fn balls_on(&self, line: &Line, room: &mut Room) -> Result<Vec<(i32, u16)>, Fault> {
        let numbers = self.balls_beside(line)?;
        let mut lists = LineLists { starts: &mut room.starts, positions: &mut room.positions, shapes: &mut room.shapes };
        let counts = cross_balls_into(&numbers, &mut lists).map_err(|refusal| self.fault(line, refusal, &self.ball_places))?;
        let crossings = room.positions.iter().zip(&room.shapes).take(counts.crossings);
        Ok(crossings.map(|(position, ball)| (*position, self.ball_places[usize::from(*ball)].name as u16)).collect())
    }

    /// The balls as a line has them.
    fn balls_beside(&self, line: &Line) -> Result<Vec<i32>, Fault> {
        let mut numbers = Vec::with_capacity(4 * self.balls.len());
        for (centre, radius) in &self.balls {
            let ball = line.ball(*centre, *radius).map_err(Fault::Lines)?;
            numbers.extend([ball.offsets[0], ball.offsets[1], ball.radius, ball.centre]);
        }
        Ok(numbers)
    }

    /// What is said of a block that the library refuses. A line before the one that it names may be at fault by its balls.
    fn first_fault(&self, lines: &[Line], LineRefusal { line, refusal }: LineRefusal) -> Fault {
        let (at, mut room) = (line.unwrap_or_default(), Room::of(self.balls.len()));
        let by_balls = lines[..at].iter().try_for_each(|line| self.balls_on(line, &mut room).map(drop));
        let by_balls = by_balls.and_then(|()| match self.balls_first {
            true => self.balls_beside(&lines[at]).map(drop),
            false => Ok(()),
        });
        by_balls.err().unwrap_or_else(|| self.fault(&lines[at], refusal, &self.plain))
    }

    fn fault(&self, line: &Line, refusal: Refusal, places: &[Place]) -> Fault {
        let drawn: Vec<usize> = places.iter().map(|place| place.drawn).collect();
        self.drawing.fault(line, refusal, &drawn)
    }
}

/// Makes a list at least so long; what it holds does not matter.
fn make_room<T: Copy + Default>(list: &mut Vec<T>, room: usize) {
    if list.len() < room {
        *list = vec![T::default(); room];
    }
}

/// Lists that the library writes one line's balls to.
struct Room {
    starts: Vec<u8>,
    positions: Vec<i32>,
    shapes: Vec<u16>,
}

impl Room {
    /// For so many balls, which have two crossings each at most.
    fn of(balls: usize) -> Room {
        Room { starts: vec![0; balls], positions: vec![0; 2 * balls], shapes: vec![0; 2 * balls] }
    }
}

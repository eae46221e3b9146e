//! Orders and sheets as types. Nothing is judged here: a length of 0 can be written down, and the calls refuse it.

/// A case, inside, and what is asked of its load. x is width, y depth, z height.
#[derive(Clone, Debug, PartialEq)]
pub struct Container {
    /// along x
    pub width: f64,
    /// along y
    pub depth: f64,
    /// along z
    pub height: f64,
    /// air along the walls, the floor and the top
    pub margin: f64,
    /// air between boxes, also above each other
    pub spacing: f64,
    /// the most mass that the case takes; a load file has no words for a limit of +0, and it is read as none
    pub limit: Option<f64>,
}

impl Container {
    /// A case without margin, spacing and limit.
    pub fn new(width: f64, depth: f64, height: f64) -> Container {
        Container { width, depth, height, margin: 0.0, spacing: 0.0, limit: None }
    }

    /// The same with a margin.
    pub fn with_margin(self, margin: f64) -> Container {
        Container { margin, ..self }
    }

    /// The same with a spacing.
    pub fn with_spacing(self, spacing: f64) -> Container {
        Container { spacing, ..self }
    }

    /// The same with a limit.
    pub fn with_limit(self, limit: f64) -> Container {
        Container { limit: Some(limit), ..self }
    }
}

/// How a kind may be turned.
#[derive(Clone, Copy, Debug, PartialEq, Eq, Hash)]
pub enum Rule {
    /// six ways
    Any,
    /// two ways, with its height upwards
    Upright,
    /// one way
    Fixed,
}

impl Rule {
    /// The orientations that it allows, by their number: which of the box's own lengths (0 width, 1 depth, 2 height) lies along x, y and z.
    pub fn orientations(self) -> &'static [[usize; 3]] {
        match self {
            Rule::Any => &[[0, 1, 2], [0, 2, 1], [1, 0, 2], [1, 2, 0], [2, 0, 1], [2, 1, 0]],
            Rule::Upright => &[[0, 1, 2], [1, 0, 2]],
            Rule::Fixed => &[[0, 1, 2]],
        }
    }
}

/// A sort of box.
#[derive(Clone, Debug, PartialEq)]
pub struct Kind {
    /// no two kinds of an order have the same
    pub id: u32,
    /// how many boxes, 1 or more
    pub quantity: u32,
    /// width, depth, height
    pub size: [f64; 3],
    /// of one box
    pub mass: Option<f64>,
    /// how it may be turned
    pub rule: Rule,
}

impl Kind {
    /// So many boxes without a mass, to be turned in any way.
    pub fn new(id: u32, quantity: u32, size: [f64; 3]) -> Kind {
        Kind { id, quantity, size, mass: None, rule: Rule::Any }
    }

    /// The same with a mass for each box.
    pub fn with_mass(self, mass: f64) -> Kind {
        Kind { mass: Some(mass), ..self }
    }

    /// The same with a rule.
    pub fn with_rule(self, rule: Rule) -> Kind {
        Kind { rule, ..self }
    }

    /// Its lengths along x, y and z in an orientation. A number past those that its rule allows leaves it unrotated.
    ///
    /// ```
    /// use waikurpeho::{Kind, Rule};
    ///
    /// let tray = Kind::new(7, 3, [180.0, 120.0, 90.0]).with_rule(Rule::Upright);
    /// assert_eq!(tray.lengths_in(1), [120.0, 180.0, 90.0]);
    /// ```
    pub fn lengths_in(&self, orientation: u32) -> [f64; 3] {
        match self.rule.orientations().get(orientation as usize) {
            Some(axes) => axes.map(|axis| self.size[axis]),
            None => self.size,
        }
    }
}

/// One box placed.
#[derive(Clone, Debug, PartialEq)]
pub struct Line {
    /// its kind's id
    pub id: u32,
    /// which box of the kind, counted from 0
    pub instance: u32,
    /// a place in the [orientations](Rule::orientations) of the kind's rule
    pub orientation: u32,
    /// the case that it is in; there is one, 0
    pub bin: u32,
    /// its corner with the least x, y and z
    pub at: [f64; 3],
}

/// What is to be packed.
#[derive(Clone, Debug, PartialEq)]
pub struct Order {
    /// into what
    pub container: Container,
    /// the boxes
    pub kinds: Vec<Kind>,
}

impl Order {
    /// An order of no kinds yet.
    pub fn new(container: Container) -> Order {
        Order { container, kinds: Vec::new() }
    }

    /// The same with one kind more.
    pub fn with(mut self, kind: Kind) -> Order {
        self.kinds.push(kind);
        self
    }
}

/// An order with lines, and with the ids of kinds of which a box is left out.
#[derive(Clone, Debug, PartialEq)]
pub struct Sheet {
    /// what was to be packed
    pub order: Order,
    /// the boxes that stand
    pub lines: Vec<Line>,
    /// the ids of kinds that are short
    pub unplaced: Vec<u32>,
}

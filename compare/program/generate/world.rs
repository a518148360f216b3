//! What a generated section has: globals, fields, subtables, and the names in scope so far.

use sleigh_parse::ast::Ident;

use crate::{maker::Maker, rng::Rng};

/// How free the generation is.
#[derive(Clone, Copy)]
pub struct Style {
    /// Chance, in percent, that a size or a name is not the fitting one.
    pub noise: usize,
    /// Chance, in percent, that a local gets no size.
    pub unsized_locals: usize,
    pub depth: usize,
    /// Whether the file should stay within a block or two.
    pub small: bool,
}

#[derive(Clone, Copy, PartialEq)]
pub struct Known {
    pub name: Ident,
    pub size: Option<u16>,
}

pub struct World {
    pub maker: Maker,
    pub rng: Rng,
    pub style: Style,
    pub registers: Vec<Known>,
    pub bit_ranges: Vec<Known>,
    pub fields: Vec<Known>,
    pub subtables: Vec<Known>,
    pub tables: Vec<Ident>,
    pub user_ops: Vec<Ident>,
    /// Macros and the sizes that their bodies expect of arguments.
    pub macros: Vec<(Ident, Vec<Option<u16>>)>,
    pub others: Vec<Ident>,
    pub ram: Ident,
    pub register_space: Option<Ident>,
    pub other_space: Option<Ident>,
    pub locals: Vec<Known>,
    pub params: Vec<Known>,
    pub labels: Vec<Ident>,
}

pub const SIZES: [u16; 10] = [1, 1, 2, 2, 4, 4, 4, 8, 8, 16];

impl World {
    pub fn new(rng: Rng, style: Style) -> Self {
        let mut maker = Maker::new();
        let ram = maker.name("ram");
        let mut world = Self {
            maker,
            rng,
            style,
            registers: vec![],
            bit_ranges: vec![],
            fields: vec![],
            subtables: vec![],
            tables: vec![],
            user_ops: vec![],
            macros: vec![],
            others: vec![],
            ram,
            register_space: None,
            other_space: None,
            locals: vec![],
            params: vec![],
            labels: vec![],
        };
        world.header_names();
        world.spaces();
        world.storage();
        world.symbols();
        world
    }

    /// The header's names have other spellings at times, and may coincide.
    fn header_names(&mut self) {
        if self.rng.percent(4) {
            let other = self.rng.below(4) as u16;
            match self.rng.below(4) {
                0 => self.maker.section.inst_start = other,
                1 => self.maker.section.inst_next = other,
                2 => self.maker.section.const_name = other,
                _ => self.maker.section.delay_slot = other,
            }
        }
    }

    fn spaces(&mut self) {
        let size = self.rng.pick(&[8, 8, 8, 4, 4, 2, 1, 16, 0]);
        self.maker.space("ram", 0, size);
        let register = self.rng.percent(75);
        self.register_space = register.then(|| self.maker.space("reg", 1, 4));
        let other = self.rng.percent(20);
        self.other_space = other.then(|| self.maker.space("io", 2, 2));
        let count = self.maker.section.spaces.len();
        self.maker.section.default_space = match self.rng.below(100) {
            0..=87 => Some(0),
            88..=94 => None,
            _ => Some(self.rng.below(count) as u16),
        };
    }

    fn storage(&mut self) {
        let count = self.rng.range(2, if self.style.small { 4 } else { 10 });
        for i in 0..count {
            let size = if i < 2 { 4 } else { self.size() };
            let name = self.maker.register(&format!("r{i}"), size);
            self.registers.push(Known { name, size: Some(size) });
        }
        for i in 0..self.rng.below(3) {
            self.bit_range(i);
        }
    }

    fn bit_range(&mut self, i: usize) {
        let register = self.rng.below(self.registers.len());
        let bits = 8 * self.registers[register].size.unwrap_or(1).max(1);
        let (mut first, mut count) =
            (self.rng.below(bits as usize) as u16, self.rng.range(1, 9) as u16);
        if self.rng.percent(40) {
            (first, count) = (first / 8 * 8, 8);
        }
        if self.rng.percent(4) {
            (first, count) = (self.rng.pick(&[0, 64, 8_192]), self.rng.pick(&[0, 64, 8_192]));
        }
        let name = self.maker.bit_range(&format!("b{i}"), register as u16, first, count);
        self.bit_ranges.push(Known { name, size: Some(count.div_ceil(8)) });
    }

    fn symbols(&mut self) {
        for i in 0..self.rng.below(3) {
            let export = if self.rng.percent(75) { Some(self.size()) } else { None };
            self.tables.push(self.maker.table(&format!("t{i}"), export));
            for j in 0..self.rng.pick(&[0, 1, 1, 1, 2]) {
                let name = if j == 0 && self.rng.percent(60) {
                    format!("t{i}")
                } else {
                    format!("s{i}{j}")
                };
                let name = self.maker.subtable(&name, i as u16);
                self.subtables.push(Known { name, size: export });
            }
        }
        for i in 0..self.rng.below(3) {
            self.user_ops.push(self.maker.user_op(&format!("u{i}")));
        }
        if self.rng.percent(3) {
            self.user_ops.push(self.maker.user_op("abs"));
        }
        if self.rng.percent(25) {
            self.others.push(self.maker.other("tok"));
        }
        for i in 0..self.rng.below(3) {
            let size = if self.rng.percent(50) { Some(self.size()) } else { None };
            let name = self.maker.field(&format!("f{i}"), size);
            self.fields.push(Known { name, size });
        }
        self.odd_locals();
    }

    /// A field or a subtable may have a global's name, or that of inst_next.
    fn odd_locals(&mut self) {
        if self.rng.percent(3) {
            let name = self.rng.pick(&["inst_next", "inst_start", "r0", "u0", "ram"]);
            let name = self.maker.field(name, Some(4));
            self.fields.push(Known { name, size: Some(4) });
        }
    }

    pub fn size(&mut self) -> u16 {
        match self.rng.below(200) {
            0 => 0,
            1 => self.rng.range(0, 1_024) as u16,
            2 => 1_024,
            _ => self.rng.pick(&SIZES),
        }
    }

    pub fn pointer(&self) -> Option<u16> {
        Some(self.maker.section.pointer_size())
    }

    pub fn noisy(&mut self) -> bool {
        self.rng.percent(self.style.noise)
    }

    /// A name that nothing has yet, most of the time.
    pub fn fresh(&mut self) -> Ident {
        if self.rng.percent(3) {
            return self.any_name();
        }
        let taken = self.locals.len() + self.labels.len() + self.params.len();
        let text = format!("v{}", taken + self.rng.below(2));
        self.maker.name(&text)
    }

    pub fn any_name(&mut self) -> Ident {
        let count = self.maker.section.names.len();
        section::ident(self.rng.below(count) as u16)
    }
}

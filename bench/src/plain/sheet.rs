//! A bar, its bolts, its holes and its loads, with the tables that go with them.

pub struct Steel {
    pub name: &'static str,
    pub yield_stress: u32,
    pub tensile_stress: u32,
}

pub static STEELS: [Steel; 6] = [
    Steel {
        name: "A36",
        yield_stress: 250,
        tensile_stress: 400,
    },
    Steel {
        name: "A529",
        yield_stress: 290,
        tensile_stress: 415,
    },
    Steel {
        name: "A572-42",
        yield_stress: 290,
        tensile_stress: 415,
    },
    Steel {
        name: "A572-50",
        yield_stress: 345,
        tensile_stress: 450,
    },
    Steel {
        name: "A572-60",
        yield_stress: 415,
        tensile_stress: 515,
    },
    Steel {
        name: "A572-65",
        yield_stress: 450,
        tensile_stress: 550,
    },
];

pub struct Size {
    pub name: &'static str,
    pub diameter: u32,
    pub area: u32,
}

pub static SIZES: [Size; 4] = [
    Size {
        name: "M16",
        diameter: 16,
        area: 201,
    },
    Size {
        name: "M20",
        diameter: 20,
        area: 314,
    },
    Size {
        name: "M22",
        diameter: 22,
        area: 380,
    },
    Size {
        name: "M24",
        diameter: 24,
        area: 452,
    },
];

pub struct Bar {
    pub width: u32,
    pub thickness: u32,
    pub steel: &'static Steel,
    pub edge: u32,
}

pub struct Bolt {
    pub size: &'static Size,
    pub stress: u32,
    pub planes: u32,
}

#[derive(Clone, Copy)]
pub struct Hole {
    pub x: u32,
    pub y: u32,
    pub diameter: u32,
}

/// The letters of the loads, by the numbers of the loads.
pub const LETTERS: [u8; 7] = *b"DLASRWE";

pub struct Sheet {
    pub bar: Bar,
    pub bolt: Bolt,
    /// In number order: by rising y, and by rising x where y is equal.
    pub holes: Vec<Hole>,
    /// In newtons, in the order of the letters.
    pub loads: [i32; 7],
}

//! What the two baselines share of the papers, however each keeps a state: what four bytes mean, refusals 1 to 9 and
//! 15, which single places decide, and the state that an instruction gives. The library has no part in it.

pub const USERS: usize = 32;
pub const AREAS: usize = 32;
pub const OBJECTS: usize = 64;

/// "a table may be lent across at most 8 steps": document 02, point 2.
pub const MOST_STEPS: u8 = 8;

/// The answer "no access", and what is added to a refusal of the access question: both as the C interface has them.
pub const NO_ACCESS: u8 = 255;
pub const REFUSED: u16 = 256;

/// Four bytes: code, activator, a, b.
pub type Bytes = [u8; 4];

/// A number that is listed or not, or a pair that is there or not.
#[derive(Clone, Copy)]
pub enum Place {
    User(usize),
    Area(usize),
    Object(usize),
    Owner(usize, usize),
    Definition(usize, usize),
    Structure(usize, usize),
    Import(usize, usize),
    Export(usize, usize),
}

/// A state, read and written place by place.
pub trait Site {
    fn has(&self, place: Place) -> bool;
    fn put(&mut self, place: Place, there: bool);
}

#[derive(Clone, Copy)]
pub struct Instruction {
    pub code: u8,
    pub user: usize,
    pub a: usize,
    pub b: usize,
}

impl Instruction {
    /// The instruction of four bytes, or refusal 1 or 2.
    pub fn of([code, activator, a, b]: Bytes) -> Result<Instruction, u8> {
        let limit = match code {
            1 | 2 => 1,
            3 | 4 => USERS,
            5 | 6 => AREAS,
            7..=12 => OBJECTS,
            _ => return Err(1),
        };
        let (user, a, b) = (usize::from(activator), usize::from(a), usize::from(b));
        if user < USERS && a < AREAS && b < limit {
            Ok(Instruction { code, user, a, b })
        } else {
            Err(2)
        }
    }

    fn adds(self) -> bool {
        self.code % 2 == 1
    }

    /// The instruction that takes back what this one did, for codes 5 to 12.
    pub fn opposite(self) -> Instruction {
        let code = if self.adds() { self.code + 1 } else { self.code - 1 };
        Instruction { code, ..self }
    }

    /// What is added or removed.
    fn target(self) -> Place {
        let Instruction { code, a, b, .. } = self;
        match code {
            1 | 2 => Place::Area(a),
            3 | 4 => Place::Owner(b, a),
            5 | 6 => Place::Structure(a, b),
            7 => Place::Object(b),
            8 => Place::Definition(b, a),
            9 | 10 => Place::Import(b, a),
            _ => Place::Export(b, a),
        }
    }
}

fn is_listed(s: &impl Site, x: Instruction) -> bool {
    let b_listed = match x.code {
        1 => return true,
        4 => s.has(Place::User(x.b)),
        5 | 6 => s.has(Place::Area(x.b)),
        8..=12 => s.has(Place::Object(x.b)),
        _ => true,
    };
    s.has(Place::Area(x.a)) && b_listed
}

fn is_entitled(s: &impl Site, x: Instruction) -> bool {
    let owns = |area| s.has(Place::Owner(x.user, area));
    match x.code {
        1 => true,
        5 => owns(x.a) && owns(x.b),
        6 => owns(x.a) || owns(x.b),
        _ => owns(x.a),
    }
}

/// An area that is to be unlisted is still in use: refusal 9.
fn is_in_use(s: &impl Site, user: usize, area: usize) -> bool {
    let of_object =
        |o| s.has(Place::Definition(o, area)) || s.has(Place::Import(o, area)) || s.has(Place::Export(o, area));
    (0..USERS).any(|u| u != user && s.has(Place::Owner(u, area)))
        || (0..OBJECTS).any(of_object)
        || (0..AREAS).any(|c| s.has(Place::Structure(area, c)) || s.has(Place::Structure(c, area)))
}

/// The first of refusals 3 to 7, 15, 8 and 9 that applies: what the given state decides.
pub fn permit(s: &impl Site, x: Instruction) -> Result<(), u8> {
    if !s.has(Place::User(x.user)) {
        return Err(3);
    }
    if !is_listed(s, x) {
        return Err(4);
    }
    if !is_entitled(s, x) {
        return Err(5);
    }
    let present = s.has(x.target());
    if x.adds() && present {
        return Err(6);
    }
    if !x.adds() && !present {
        return Err(7);
    }
    if x.code == 9 && s.has(Place::Definition(x.b, x.a)) {
        return Err(15);
    }
    if x.code == 4 && (0..USERS).filter(|&u| s.has(Place::Owner(u, x.a))).count() == 1 {
        return Err(8);
    }
    if x.code == 2 && (0..AREAS).filter(|&a| s.has(Place::Area(a))).count() == 1 {
        return Err(8);
    }
    if x.code == 2 && is_in_use(s, x.user, x.a) {
        return Err(9);
    }
    Ok(())
}

fn remove_owner(s: &mut impl Site, user: usize, area: usize) {
    s.put(Place::Owner(user, area), false);
    if !(0..AREAS).any(|a| s.has(Place::Owner(user, a))) {
        s.put(Place::User(user), false);
    }
}

/// Makes the state that the instruction gives.
pub fn obey(s: &mut impl Site, x: Instruction) {
    let Instruction { code, user, a, b } = x;
    match code {
        1 => {
            s.put(Place::Area(a), true);
            s.put(Place::Owner(user, a), true);
        }
        2 => {
            s.put(Place::Area(a), false);
            remove_owner(s, user, a);
        }
        3 => {
            s.put(Place::User(b), true);
            s.put(Place::Owner(b, a), true);
        }
        4 => remove_owner(s, b, a),
        7 | 8 => {
            s.put(Place::Object(b), x.adds());
            s.put(Place::Definition(b, a), x.adds());
        }
        _ => s.put(x.target(), x.adds()),
    }
}

/// The area and object of an access question, or refusal 2 or 4.
pub fn question(s: &impl Site, area: u32, object: u32) -> Result<(usize, usize), u8> {
    let (area, object) = (area as usize, object as usize);
    if area >= AREAS || object >= OBJECTS {
        return Err(2);
    }
    if !(s.has(Place::Area(area)) && s.has(Place::Object(object))) {
        return Err(4);
    }
    Ok((area, object))
}

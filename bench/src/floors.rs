//! The floors of `bench all`, from floors.txt: a line for each family, `part | family | floor | aim`.

#[derive(Clone, Copy, Debug)]
pub struct Floor {
    /// The least that the ratio plain to ours may be.
    pub floor: f64,
    /// What it is to become, where that is more.
    pub aim: Option<f64>,
}

/// Part, family, floor. Lines that are empty or begin with "#" say nothing.
pub fn all() -> impl Iterator<Item = (&'static str, &'static str, Floor)> {
    let lines = include_str!("../floors.txt").lines().filter(|line| !line.is_empty() && !line.starts_with('#'));
    lines.map(|line| {
        let words: Vec<&str> = line.split('|').map(str::trim).collect();
        let number = |word: &str| word.parse().unwrap_or_else(|_| panic!("floors.txt: {line}"));
        match words[..] {
            [part, family, floor, aim] => {
                let aim = (!aim.is_empty()).then(|| number(aim));
                (part, family, Floor { floor: number(floor), aim })
            }
            _ => panic!("floors.txt: {line}"),
        }
    })
}

pub fn of(part: &str, family: &str) -> Floor {
    let found = all().find(|line| (line.0, line.1) == (part, family));
    found.unwrap_or_else(|| panic!("floors.txt: no line for {part}, {family}")).2
}

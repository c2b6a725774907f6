//! Prime implicants of a function of up to nine variables.

/// A product: the variables that it names at 1 and at 0, as masks; variable i is bit i.
#[derive(Clone, Copy, Debug, Default, PartialEq, Eq, Hash, PartialOrd, Ord)]
pub struct Cube {
    pub ones: u32,
    pub zeros: u32,
}

impl Cube {
    pub fn names(self, variable: usize) -> bool {
        (self.ones | self.zeros) >> variable & 1 == 1
    }

    /// Whether a setting, one bit a variable, meets all that is named.
    pub fn meets(self, setting: u32) -> bool {
        setting & self.ones == self.ones && setting & self.zeros == 0
    }

    pub fn and(self, other: Cube) -> Cube {
        Cube { ones: self.ones | other.ones, zeros: self.zeros | other.zeros }
    }

    /// Names a variable at a value.
    pub fn with(self, variable: usize, value: bool) -> Cube {
        let bit = 1 << variable;
        if value {
            self.and(Cube { ones: bit, zeros: 0 })
        } else {
            self.and(Cube { ones: 0, zeros: bit })
        }
    }
}

/// All prime implicants of `f` over the named variables, each a bit of the setting; the other bits of a setting are 0.
pub fn primes(variables: &[usize], f: impl Fn(u32) -> bool) -> Vec<Cube> {
    let n = variables.len();
    assert!(n <= 9, "at most nine variables");
    let count = 3usize.pow(n as u32);
    // A digit of a cube's index: 0 named at 0, 1 named at 1, 2 not named.
    let mut implicant = vec![false; count];
    let digit = |index: usize, at: usize| index / 3usize.pow(at as u32) % 3;
    for index in 0..count {
        implicant[index] = match (0..n).find(|&at| digit(index, at) == 2) {
            Some(at) => {
                let step = 3usize.pow(at as u32);
                implicant[index - 2 * step] && implicant[index - step]
            }
            None => f((0..n).fold(0, |setting, at| setting | (digit(index, at) as u32) << variables[at])),
        };
    }
    let mut found = Vec::new();
    for index in 0..count {
        let wider = |at: usize| implicant[index + (2 - digit(index, at)) * 3usize.pow(at as u32)];
        if implicant[index] && (0..n).all(|at| digit(index, at) == 2 || !wider(at)) {
            let mut cube = Cube::default();
            for at in 0..n {
                if digit(index, at) < 2 {
                    cube = cube.with(variables[at], digit(index, at) == 1);
                }
            }
            found.push(cube);
        }
    }
    found
}

#[cfg(test)]
mod tests {
    use super::*;

    #[test]
    fn a_multiplexer_has_its_consensus() {
        let found = primes(&[0, 1, 2], |s| if s & 4 == 4 { s & 2 == 2 } else { s & 1 == 1 });
        assert_eq!(found.len(), 3);
        assert!(found.contains(&Cube { ones: 3, zeros: 0 }));
    }

    #[test]
    fn constants() {
        assert_eq!(primes(&[], |_| true), [Cube::default()]);
        assert!(primes(&[], |_| false).is_empty());
        assert_eq!(primes(&[3, 5], |_| true), [Cube::default()]);
    }

    /// By definition: each prime implicant implies f, none does with a name less, and they cover f.
    #[test]
    fn by_definition() {
        let mut state = 1u64;
        for n in 0..=6usize {
            for _ in 0..40 {
                state = state.wrapping_mul(6_364_136_223_846_793_005).wrapping_add(1_442_695_040_888_963_407);
                let (a, b) = (state, state.rotate_left(23));
                let table = if n % 2 == 0 { a | b } else { a & b };
                let f = |s: u32| table >> s & 1 == 1;
                let variables: Vec<usize> = (0..n).collect();
                let found = primes(&variables, f);
                let settings = 0..1u32 << n;
                let implies = |cube: Cube| settings.clone().filter(|&s| cube.meets(s)).all(f);
                for s in settings.clone() {
                    assert_eq!(f(s), found.iter().any(|cube| cube.meets(s)));
                }
                for cube in &found {
                    assert!(implies(*cube));
                    for variable in 0..n {
                        if cube.names(variable) {
                            let bit = !(1 << variable);
                            let wider = Cube { ones: cube.ones & bit, zeros: cube.zeros & bit };
                            assert!(!implies(wider));
                        }
                    }
                }
            }
        }
    }
}

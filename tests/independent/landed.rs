//! Document 02's requests: the order in which they land, and the set of those that have. A stored case
//! holds for one such set, its stage.

/// The requests in the order in which they land.
pub const ORDER: [u32; 14] = [3, 2, 1, 4, 14, 10, 5, 6, 13, 8, 12, 9, 7, 11];

/// What has landed. A landing adds its request's number.
pub const LANDED: Landed = Landed::of(&[3, 2, 1, 4]);

// What has landed is the front of the order: a stage is one too.
const _: () = {
    let (front, _) = ORDER.split_at(LANDED.0.count_ones() as usize);
    assert!(LANDED.0 == Landed::of(front).0, "not in the order");
};

/// A set of requests.
#[derive(Clone, Copy, PartialEq, Eq, Debug)]
pub struct Landed(u16);

impl Landed {
    /// The set of these requests.
    pub const fn of(requests: &[u32]) -> Landed {
        let mut bits = 0;
        let mut i = 0;
        while i < requests.len() {
            bits |= 1 << requests[i];
            i += 1;
        }
        Landed(bits)
    }

    /// Whether a request has landed.
    pub fn has(self, request: u32) -> bool {
        self.0 & Landed::of(&[request]).0 != 0
    }

    /// Whether every request of the other set has landed.
    pub fn reaches(self, stage: Landed) -> bool {
        ORDER
            .iter()
            .all(|&request| self.has(request) || !stage.has(request))
    }

    /// The stage that a file of cases names at the front of its name: `base-` for document 01 alone,
    /// `02-R-2` for the second landing, which is R-2's, with all before it. None where it names none.
    pub fn of_file(name: &str) -> Option<Landed> {
        if name.starts_with("base-") {
            return Some(Landed::of(&[]));
        }
        let named = |landing: usize| {
            let front = format!("{landing:02}-R-{}", ORDER[landing - 1]);
            let rest = name.strip_prefix(&front)?;
            (rest.starts_with('.') || rest.starts_with('-')).then_some(landing)
        };
        let landing = (1..=ORDER.len()).find_map(named)?;
        Some(Landed::of(&ORDER[..landing]))
    }
}

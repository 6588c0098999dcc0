//! An answer, read from its 72 bytes.

/// What one answer shows.
#[derive(Clone, Copy, Debug, PartialEq, Eq)]
pub struct Seen {
    /// The refusal of the order, or 0.
    pub refusal: u8,
    /// 0 dead, 1 open, 2 decided.
    pub status: u8,
    /// The number of marks.
    pub depth: u8,
    /// 0, or for an accepted finish 1 found, 2 none, 3 stopped.
    pub outcome: u8,
    /// Bit s for sheet s.
    pub done: u8,
    /// The tries that an accepted finish made, else 0.
    pub tries: u16,
    /// What stands in the place of the sixteen domains.
    pub domains: [u32; 16],
}

impl Seen {
    /// Reads an answer.
    pub fn read(answer: &[u8; 72]) -> Self {
        let [refusal, status, depth, outcome, done, zero, low, high] =
            *answer.first_chunk::<8>().unwrap();
        assert_eq!(zero, 0, "byte 5 of an answer");
        let tries = u16::from_le_bytes([low, high]);
        assert!(
            outcome != 0 || tries == 0,
            "tries without an accepted finish"
        );
        let mut domains = [0; 16];
        for (domain, &bytes) in domains.iter_mut().zip(answer[8..].as_chunks().0) {
            *domain = u32::from_le_bytes(bytes);
        }
        Self {
            refusal,
            status,
            depth,
            outcome,
            done,
            tries,
            domains,
        }
    }

    /// Reads every answer of a space that has nothing after them.
    pub fn read_all(space: &[u8]) -> Vec<Self> {
        let (answers, rest) = space.as_chunks();
        assert!(rest.is_empty());
        answers.iter().map(Self::read).collect()
    }

    /// The state at each of these answers, the opening first: a finish shows its full set where the domains would be,
    /// and leaves them.
    pub fn states(answers: &[Self]) -> Vec<Self> {
        let mut states: Vec<Self> = Vec::with_capacity(answers.len());
        for answer in answers {
            let mut state = *answer;
            if let Some(before) = states.last().filter(|_| answer.outcome != 0) {
                state.domains = before.domains;
            }
            states.push(state);
        }
        states
    }

    /// Whether the session is dead.
    pub fn is_dead(&self) -> bool {
        self.status == 0
    }
}

/// How many values these domains have together.
pub(crate) fn values(domains: &[u32; 16]) -> usize {
    domains.iter().map(|d| d.count_ones() as usize).sum()
}

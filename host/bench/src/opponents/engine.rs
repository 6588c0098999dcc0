//! Propagation and search, over any way to keep the valid rows.

use super::book::{Book, Sheet};
use super::Shown;

/// A way to keep the valid rows.
pub trait Rows {
    /// What comes back with the domains after a try or at a back.
    type Kept: Copy;

    /// No row of any sheet.
    const NONE: Self::Kept;

    /// Lends what rows are kept in.
    fn with<T>(then: impl FnOnce(&mut Self) -> T) -> T;

    /// Makes every row of sheet s valid.
    fn fill(&mut self, kept: &mut Self::Kept, s: usize, sheet: &Sheet);

    /// Pass 1: rows of sheet s whose value in a changed column is gone are no longer valid. Whether one
    /// was; None if no row is left.
    fn cut(
        &mut self,
        kept: &mut Self::Kept,
        s: usize,
        sheet: &Sheet,
        changed: u16,
        domains: &[u32; 16],
    ) -> Option<bool>;

    /// The values that the valid rows of sheet s carry; None as soon as all that are wanted are among
    /// them.
    fn carried(
        &self,
        kept: &Self::Kept,
        s: usize,
        sheet: &Sheet,
        wanted: [u32; 4],
    ) -> Option<[u32; 4]>;
}

/// A session between two orders.
#[derive(Clone, Copy)]
pub struct State<K> {
    domains: [u32; 16],
    kept: K,
}

/// A state and its status.
#[derive(Clone, Copy)]
pub struct Level<K> {
    pub state: State<K>,
    status: u8,
}

impl<K> Level<K> {
    /// This state with its status.
    pub fn of(state: State<K>) -> Self {
        let status = status_of(&state.domains);
        Self { state, status }
    }

    /// What an order with this refusal leaves.
    pub fn shown(&self, refusal: u8) -> Shown {
        Shown {
            refusal,
            status: self.status,
            domains: self.state.domains,
        }
    }
}

fn status_of(domains: &[u32; 16]) -> u8 {
    let several = |any, domain: &u32| any | (domain & domain.wrapping_sub(1));
    match domains.iter().fold(0, several) {
        _ if domains[0] == 0 => 0,
        0 => 2,
        _ => 1,
    }
}

/// A book and a way to keep its valid rows.
pub struct Engine<'a, R> {
    pub book: &'a Book<'a>,
    pub rows: &'a mut R,
    /// How often a search has set a column to a value.
    pub tries: u64,
}

impl<R: Rows> Engine<'_, R> {
    /// The state of a book to which nothing has been done, propagated.
    pub fn opening(&mut self) -> State<R::Kept> {
        let mut now = State {
            domains: [0; 16],
            kept: R::NONE,
        };
        for (domain, &count) in now.domains.iter_mut().zip(&self.book.head[8..24]) {
            *domain = ((1_u64 << count) - 1) as u32;
        }
        let count = usize::from(self.book.head[5]);
        for (s, sheet) in self.book.sheets[..count].iter().enumerate() {
            self.rows.fill(&mut now.kept, s, sheet);
        }
        let all = ((1_u32 << count) - 1) as u8;
        if !propagate(self.book, self.rows, &mut now, 0, all, all) {
            now.domains = [0; 16];
        }
        now
    }

    /// A dead session has empty domains.
    pub fn narrow(&mut self, level: &mut Level<R::Kept>, column: usize, mask: u32) {
        let state = &mut level.state;
        let old = state.domains[column];
        state.domains[column] &= mask;
        if state.domains[column] == old {
            return;
        }
        if state.domains[column] == 0 || !self.lost(state, column) {
            state.domains = [0; 16];
        }
        level.status = status_of(&state.domains);
    }

    /// The first full set, one bit for each column, or zeros for none. The lowest column that isn't
    /// single is set to each of its values in rising order.
    pub fn first_set(&mut self, state: &State<R::Kept>) -> [u32; 16] {
        let mut copy = *state;
        match state.domains[0] != 0 && self.pick(&mut copy, 0) {
            true => copy.domains,
            false => [0; 16],
        }
    }

    /// Whether there is a full set; then the state has its domains. Otherwise the state is spoilt. The
    /// columns below `first` are single.
    fn pick(&mut self, state: &mut State<R::Kept>, first: usize) -> bool {
        let domains = state.domains;
        let columns = usize::from(self.book.head[4]);
        let open = |&c: &usize| domains[c] & (domains[c] - 1) != 0;
        let Some(column) = (first..columns).find(open) else {
            return true;
        };
        let mut left = domains[column];
        loop {
            let rest = left & (left - 1);
            // The last value needs no copy.
            if rest == 0 {
                return self.set(state, column, left);
            }
            let mut copy = *state;
            if self.set(&mut copy, column, left ^ rest) {
                state.domains = copy.domains;
                return true;
            }
            left = rest;
        }
    }

    fn set(&mut self, state: &mut State<R::Kept>, column: usize, value: u32) -> bool {
        self.tries += 1;
        state.domains[column] = value;
        self.lost(state, column) && self.pick(state, column + 1)
    }

    /// Propagates the loss of values in a column; false if a sheet has no valid row left. Then the
    /// state is spoilt.
    fn lost(&mut self, state: &mut State<R::Kept>, column: usize) -> bool {
        propagate(
            self.book,
            self.rows,
            state,
            1 << column,
            self.book.sheets_of[column],
            0,
        )
    }
}

/// Looks at the waiting sheets, and at those that this touches, until none waits. Each has yet to
/// see that these columns changed; a fresh one has its columns struck even if none of its rows
/// is cut.
fn propagate<R: Rows>(
    book: &Book,
    rows: &mut R,
    now: &mut State<R::Kept>,
    changed: u16,
    mut waiting: u8,
    mut fresh: u8,
) -> bool {
    let mut changed = [changed; 8];
    while waiting != 0 {
        let s = waiting.trailing_zeros() as usize;
        let sheet = &book.sheets[s];
        let State { domains, kept } = now;
        let Some(was_cut) = rows.cut(kept, s, sheet, changed[s], domains) else {
            return false;
        };
        if was_cut || fresh >> s & 1 == 1 {
            let lost = strike(rows, now, s, sheet);
            for changed in &mut changed {
                *changed |= lost;
            }
            let mut left = lost;
            while left != 0 {
                waiting |= book.sheets_of[left.trailing_zeros() as usize];
                left &= left - 1;
            }
        }
        changed[s] = 0;
        waiting &= !(1 << s);
        fresh &= !(1 << s);
    }
    true
}

/// Pass 2: strikes the values that no valid row carries, and gives the columns that lost one.
fn strike<R: Rows>(rows: &R, now: &mut State<R::Kept>, s: usize, sheet: &Sheet) -> u16 {
    let columns = &sheet.columns[..sheet.width];
    // A row has zeros after its values.
    let mut wanted = [1; 4];
    for (wanted, &column) in wanted.iter_mut().zip(columns) {
        *wanted = now.domains[usize::from(column)];
    }
    let Some(carried) = rows.carried(&now.kept, s, sheet, wanted) else {
        return 0;
    };
    let mut lost = 0;
    for place in 0..sheet.width {
        if wanted[place] & !carried[place] != 0 {
            let column = usize::from(sheet.columns[place]);
            now.domains[column] &= carried[place];
            lost |= 1 << column;
        }
    }
    lost
}

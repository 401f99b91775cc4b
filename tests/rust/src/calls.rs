//! The calls of the archive and those of the reference, each as one outcome: the number, the cells and every table.
//! A slice is a pointer and a length: two parameters; the cells are one pointer.

use reference::Refusal;

extern "C" {
    fn hatch_split(
        costs: *const u16,
        costs_len: usize,
        starts: *const u16,
        starts_len: usize,
        ends: *const u16,
        ends_len: usize,
        widths: *const u16,
        widths_len: usize,
        k: usize,
        limit: u32,
        table: *mut u16,
        table_len: usize,
        ladder: *mut u16,
        ladder_len: usize,
        answer: *mut [usize; 4],
    ) -> u32;
    fn hatch_inspect(
        costs: *const u16,
        costs_len: usize,
        starts: *const u16,
        starts_len: usize,
        ends: *const u16,
        ends_len: usize,
        widths: *const u16,
        widths_len: usize,
        k: usize,
        limit: u32,
        table: *const u16,
        table_len: usize,
        order: *mut u16,
        order_len: usize,
        answer: *mut [usize; 1],
    ) -> u32;
    fn hatch_check(
        costs: *const u16,
        costs_len: usize,
        starts: *const u16,
        starts_len: usize,
        ends: *const u16,
        ends_len: usize,
        widths: *const u16,
        widths_len: usize,
        k: usize,
        limit: u32,
        answer: *mut [usize; 2],
    ) -> u32;
    fn hatch_read(
        text: *const u8,
        text_len: usize,
        costs: *mut u16,
        costs_len: usize,
        starts: *mut u16,
        starts_len: usize,
        ends: *mut u16,
        ends_len: usize,
        widths: *mut u16,
        widths_len: usize,
        answer: *mut [usize; 4],
    ) -> u32;
}

/// What stands in every lent entry before a call, and in the entry past each table after it.
pub const GUARD: u16 = 0xA5A5;

/// What a call answers, and what it leaves in the tables that it may write.
#[derive(Clone, Debug, PartialEq)]
pub struct Outcome {
    pub number: u32,
    pub cells: Vec<usize>,
    pub tables: Vec<Vec<u16>>,
}

/// An answer of the reference in as many cells; a refusal is its place and then 0.
fn outcome(cells: usize, answer: Result<Vec<u64>, Refusal>, tables: Vec<Vec<u16>>) -> Outcome {
    let (number, mut values) = match answer {
        Ok(values) => (0, values),
        Err(refusal) => (refusal.number, vec![refusal.place.into()]),
    };
    values.resize(cells, 0);
    Outcome { number, cells: values.into_iter().map(|v| v as usize).collect(), tables }
}

/// A table with a guard past its end.
struct Guarded(Vec<u16>);

impl Guarded {
    fn new(length: usize) -> Guarded {
        Guarded(vec![GUARD; length + 1])
    }

    fn lend(&mut self) -> (*mut u16, usize) {
        (self.0.as_mut_ptr(), self.0.len() - 1)
    }

    fn back(mut self) -> Vec<u16> {
        assert_eq!(self.0.pop(), Some(GUARD), "written past a table");
        self.0
    }
}

/// Cells of an answer with a guard past them.
fn cells<const N: usize>(call: impl FnOnce(*mut [usize; N]) -> u32) -> (u32, Vec<usize>) {
    let mut space = vec![usize::MAX; N + 1];
    let number = call(space.as_mut_ptr().cast());
    assert_eq!(space.pop(), Some(usize::MAX), "written past the answer");
    (number, space)
}

/// A kit as lists, and the lengths of the tables lent with it.
#[derive(Clone)]
pub struct Lent {
    pub costs: Vec<u16>,
    pub wires: [Vec<u16>; 3],
    pub k: usize,
    pub limit: u32,
}

impl Lent {
    /// The stage count as the reference takes it: 32 bits, and all that lie above are refused alike.
    fn stages(&self) -> u32 {
        self.k.try_into().unwrap_or(u32::MAX)
    }

    pub fn split(&self, table: usize, ladder: usize) -> Outcome {
        let (mut t, mut l) = (Guarded::new(table), Guarded::new(ladder));
        let [a, b, w] = &self.wires;
        let ((table, table_len), (ladder, ladder_len)) = (t.lend(), l.lend());
        let (number, cells) = cells(|answer| unsafe {
            hatch_split(
                self.costs.as_ptr(),
                self.costs.len(),
                a.as_ptr(),
                a.len(),
                b.as_ptr(),
                b.len(),
                w.as_ptr(),
                w.len(),
                self.k,
                self.limit,
                table,
                table_len,
                ladder,
                ladder_len,
                answer,
            )
        });
        Outcome { number, cells, tables: vec![t.back(), l.back()] }
    }

    pub fn split_by_reference(&self, table: usize, ladder: usize) -> Outcome {
        let (mut t, mut l) = (vec![GUARD; table], vec![GUARD; ladder]);
        let [a, b, w] = &self.wires;
        let answer = reference::split(&self.costs, a, b, w, self.stages(), self.limit, &mut t, &mut l);
        let values = answer.map(|s| vec![s.cut, s.rounds.into(), s.rung.into(), s.moves.into()]);
        outcome(4, values, vec![t, l])
    }

    pub fn inspect(&self, table: &[u16], order: usize) -> Outcome {
        let mut o = Guarded::new(order);
        let [a, b, w] = &self.wires;
        let (order, order_len) = o.lend();
        let (number, cells) = cells(|answer| unsafe {
            hatch_inspect(
                self.costs.as_ptr(),
                self.costs.len(),
                a.as_ptr(),
                a.len(),
                b.as_ptr(),
                b.len(),
                w.as_ptr(),
                w.len(),
                self.k,
                self.limit,
                table.as_ptr(),
                table.len(),
                order,
                order_len,
                answer,
            )
        });
        Outcome { number, cells, tables: vec![o.back()] }
    }

    pub fn inspect_by_reference(&self, table: &[u16], order: usize) -> Outcome {
        let mut o = vec![GUARD; order];
        let [a, b, w] = &self.wires;
        let answer = reference::inspect(&self.costs, a, b, w, self.stages(), self.limit, table, &mut o);
        outcome(1, answer.map(|cut| vec![cut]), vec![o])
    }

    pub fn check(&self) -> Outcome {
        let [a, b, w] = &self.wires;
        let (number, cells) = cells(|answer| unsafe {
            hatch_check(
                self.costs.as_ptr(),
                self.costs.len(),
                a.as_ptr(),
                a.len(),
                b.as_ptr(),
                b.len(),
                w.as_ptr(),
                w.len(),
                self.k,
                self.limit,
                answer,
            )
        });
        Outcome { number, cells, tables: vec![] }
    }

    pub fn check_by_reference(&self) -> Outcome {
        let [a, b, w] = &self.wires;
        let check = reference::check_kit(&self.costs, a, b, w, self.stages(), self.limit);
        let place = check.result.err().map_or(0, |refusal| refusal.place as usize);
        let number = check.result.err().map_or(0, |refusal| refusal.number);
        Outcome { number, cells: vec![place, check.tried], tables: vec![] }
    }

    /// The check of a kit that was split as well: the reference's, and the split's number and place. 9 is not the
    /// check's to say, and a split without room (4) got only past 1 to 3.
    pub fn check_beside(&self, split: &Outcome, what: impl Fn() -> String) -> Outcome {
        let ours = self.check();
        assert_eq!(ours, self.check_by_reference(), "{}", what());
        match split.number {
            0 | 9 => assert_eq!((ours.number, ours.cells[0]), (0, 0), "{}", what()),
            4 => assert!(![1, 2, 3].contains(&ours.number), "{}", what()),
            number => assert_eq!((ours.number, ours.cells[0]), (number, split.cells[0]), "{}", what()),
        }
        ours
    }
}

/// Lengths of the four lists that a text is read into.
pub type Lengths = [usize; 4];

pub fn read(text: &[u8], lengths: Lengths) -> Outcome {
    let mut lists = lengths.map(Guarded::new);
    let [c, s, e, w] = &mut lists;
    let ((c, c_len), (s, s_len), (e, e_len), (w, w_len)) = (c.lend(), s.lend(), e.lend(), w.lend());
    let (number, cells) = cells(|answer| unsafe {
        hatch_read(text.as_ptr(), text.len(), c, c_len, s, s_len, e, e_len, w, w_len, answer)
    });
    Outcome { number, cells, tables: lists.map(Guarded::back).into() }
}

pub fn read_by_reference(text: &[u8], lengths: Lengths) -> Outcome {
    let mut lists = lengths.map(|length| vec![GUARD; length]);
    let [c, s, e, w] = &mut lists;
    let answer = reference::read_kit(text, c, s, e, w);
    let values =
        answer.map(|kit| vec![kit.blocks as u64, kit.wires as u64, kit.stages.into(), kit.limit.into()]);
    outcome(4, values, lists.into())
}

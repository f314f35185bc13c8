//! Document 01's cases A to T, typed from the document, and further ones for
//! the orders of document 02.

use crate::field::{encode, row_of, Field, *};
use crate::heap::{Heap, INVALID, UNSET};
use crate::judge::{Judge, Tally};
use crate::replay::replay_of;

fn bytes(fields: &[Field]) -> Vec<u8> {
    let encoded = |field: &Field| encode(row_of(field.tag).unwrap(), field);
    fields.iter().flat_map(encoded).collect()
}

fn m(p: u32, cell: u32, data: u32) -> Field {
    Field::of(MALLOC, &[0, p, cell, data])
}

fn free(p: u32) -> Field {
    Field::of(FREE, &[0, p])
}

fn copy(p: u32, q: u32) -> Field {
    Field::of(COPY, &[0, p, q])
}

fn judged(log: &[u8]) -> (String, Heap) {
    let mut heap = Heap::fresh();
    let verdict = Judge::default().run(log, &mut heap, &mut Tally::default());
    (verdict.to_string(), heap)
}

fn line(fields: &[Field]) -> String {
    judged(&bytes(fields)).0
}

fn replay(log: &[u8]) -> Vec<u8> {
    replay_of(&Judge::default(), log).expect("the log is accepted")
}

fn case_c() -> Vec<Field> {
    vec![
        m(0, 5, 7),
        Field::of(COPY, &[1, 24, 0]),
        free(0),
        Field::of(GET_DATA, &[1, 24, 24]),
    ]
}

fn case_e() -> Vec<Field> {
    vec![
        m(0, 5, 0),
        m(1, 6, 0),
        Field::of(STORE, &[0, 0, 0, 1]),
        free(0),
        m(0, 5, 0),
        Field::of(LOAD, &[0, 16, 0, 0]),
    ]
}

#[test]
fn case_a() {
    assert_eq!(line(&[]), "accepted 0 0 0");
    assert_eq!(replay(&[]), []);
}

#[test]
fn case_b() {
    assert_eq!(line(&[m(0, 5, 7), free(0)]), "accepted 2 1 0");
}

#[test]
fn case_c_by_fields_and_by_bytes() {
    let typed = [
        0x01, 0x08, 0x00, 0x00, 0x00, 0x05, 0x00, 0x07, 0x00, 0x00, 0x00, 0x03, 0x03, 0x00, 0x01,
        0x18, 0x00, 0x02, 0x02, 0x00, 0x00, 0x00, 0x06, 0x03, 0x00, 0x01, 0x18, 0x18,
    ];
    assert_eq!(typed.len(), 28);
    assert_eq!(bytes(&case_c()), typed);
    assert_eq!(judged(&typed).0, "race 3 1 24 22");
}

#[test]
fn case_d() {
    let mut fields = case_c();
    fields.insert(3, m(1, 5, 7));
    assert_eq!(line(&fields), "race 4 1 24 33");
}

#[test]
fn case_e_and_its_replay() {
    let log = bytes(&case_e());
    let (line, heap) = judged(&log);
    assert_eq!(line, "accepted 6 3 2");
    assert_eq!(heap.pointers[16], 2054);
    let (_, heap) = judged(&replay(&log));
    assert_eq!(heap.pointers[16], UNSET);
}

#[test]
fn case_f() {
    let mut fields = case_e();
    fields.push(Field::of(SAME_CELL, &[0, 16, 1]));
    assert_eq!(line(&fields), "race 6 0 16 52");
}

#[test]
fn case_g() {
    assert_eq!(line(&[m(0, 5, 0), m(0, 5, 0)]), "refused 13 1 11");
}

#[test]
fn case_h() {
    assert_eq!(line(&[Field::of(GET_DATA, &[0, 0, 0])]), "refused 12 0 0");
}

#[test]
fn case_i() {
    assert_eq!(line(&[free(0)]), "accepted 1 0 0");
}

#[test]
fn case_j() {
    // Order 4 changed it from accepted.
    assert_eq!(line(&[Field::of(OTHER_CELL, &[0, 0, 0])]), "refused 14 0 0");
}

#[test]
fn case_k() {
    let fields = [m(0, 5, 0), Field::of(OTHER_CELL, &[0, 0, 0])];
    assert_eq!(line(&fields), "refused 14 1 11");
}

#[test]
fn case_l_and_its_replay() {
    let get = Field::of(GET_DATA, &[0, 0, 0]);
    let log = bytes(&[m(0, 5, 7), free(0), m(0, 5, 9), get]);
    let (line, heap) = judged(&log);
    assert_eq!(line, "accepted 4 2 1");
    assert_eq!(heap.data_variables[0], 7);
    let expected = bytes(&[m(0, 0, 7), free(0), m(0, 1, 7), get]);
    assert_eq!(replay(&log), expected);
}

#[test]
fn case_n() {
    let mut fields = [m(0, 5, 0), free(0)].repeat(1024);
    fields.push(m(0, 5, 0));
    assert_eq!(line(&fields), "refused 11 2048 16384");
}

#[test]
fn case_o() {
    let fields = [
        m(0, 5, 0),
        free(0),
        m(0, 5, 0),
        Field::of(LOAD, &[0, 16, 0, 0]),
        free(16),
    ];
    let (line, heap) = judged(&bytes(&fields));
    assert_eq!(line, "race 4 0 16 34");
    assert_eq!(heap.pointers[16], 3072);
    assert_eq!(3072, UNSET + INVALID);
}

#[test]
fn case_p() {
    let fields = [
        Field::of(CONSTANT, &[0, 0, 4294967295]),
        Field::of(CONSTANT, &[0, 1, 1]),
        Field::of(SUM, &[0, 2, 0, 1]),
        Field::of(SAME_NUMBER, &[0, 2, 3]),
    ];
    assert_eq!(line(&fields), "accepted 4 0 0");
}

#[test]
fn case_q() {
    assert_eq!(line(&[Field::of(FREE, &[7, 79])]), "accepted 1 0 0");
    assert_eq!(line(&[Field::of(FREE, &[7, 80])]), "refused 8 0 0");
    assert_eq!(line(&[Field::of(FREE, &[8, 79])]), "refused 7 0 0");
}

#[test]
fn case_r() {
    assert_eq!(line(&[m(0, 1023, 0)]), "accepted 1 1 1");
    assert_eq!(line(&[m(0, 1024, 0)]), "refused 10 0 0");
}

#[test]
fn case_s() {
    let mut log = bytes(&[free(0)].repeat(4096));
    assert_eq!(judged(&log).0, "accepted 4096 0 0");
    log.push(0);
    assert_eq!(judged(&log).0, "refused 3 4096 20480");
}

#[test]
fn case_t() {
    assert_eq!(judged(&[0; 45_056]).0, "refused 5 0 0");
    assert_eq!(judged(&[0; 45_057]).0, "refused 1 0");
}

fn cas_done(p: u32, q: u32, r: u32) -> Field {
    Field::of(CAS_DONE, &[0, p, q, r])
}

fn cas_failed(p: u32, q: u32, r: u32) -> Field {
    Field::of(CAS_FAILED, &[0, p, q, r])
}

#[test]
fn cas_that_holds() {
    let begin = [m(0, 5, 0), m(1, 6, 0)];
    let done = [&begin[..], &[copy(2, 0), cas_done(0, 2, 1)]].concat();
    let (line, heap) = judged(&bytes(&done));
    assert_eq!(line, "accepted 4 2 2");
    assert_eq!(heap.pointers[..3], [6, 6, 5]);
    let failed = [&begin[..], &[cas_failed(0, 1, 1)]].concat();
    let (line, heap) = judged(&bytes(&failed));
    assert_eq!(line, "accepted 3 2 2");
    assert_eq!(heap.pointers[..2], [5, 6]);
}

#[test]
fn cas_that_does_not_hold() {
    let unequal = [m(0, 5, 0), m(1, 6, 0), cas_done(0, 1, 1)];
    let (line, heap) = judged(&bytes(&unequal));
    assert_eq!(line, "refused 14 2 22");
    assert_eq!(heap.pointers[0], 5);
    let equal = [m(0, 5, 0), cas_failed(0, 0, 1)];
    assert_eq!(self::line(&equal), "refused 14 1 11");
}

/// p1 keeps the cell of p0, which is freed and, at times, given out again.
fn stale_p1(again: bool, last: Field) -> Vec<u8> {
    let mut fields = vec![m(0, 5, 0), copy(1, 0), free(0)];
    fields.extend(again.then_some(m(0, 5, 0)));
    fields.push(last);
    bytes(&fields)
}

#[test]
fn cas_that_races() {
    for cas in [cas_done, cas_failed] {
        let line = |again, last| judged(&stale_p1(again, last)).0;
        // Both are stale, and p is looked at first.
        assert_eq!(line(false, cas(1, 0, 2)), "race 3 0 1 22");
        assert_eq!(line(true, cas(1, 0, 2)), "race 4 0 1 33");
        assert_eq!(line(true, cas(0, 1, 2)), "race 4 0 1 33");
    }
}

#[test]
fn cas_only_copies_r() {
    let log = stale_p1(true, cas_done(0, 0, 1));
    let (line, heap) = judged(&log);
    assert_eq!(line, "accepted 5 2 1");
    assert_eq!(heap.pointers[..2], [2053, 2053]);
    let expected = [
        m(0, 0, 0),
        copy(1, 0),
        free(0),
        m(0, 1, 0),
        cas_done(0, 0, 1),
    ];
    assert_eq!(replay(&log), bytes(&expected));
    let (line, heap) = judged(&stale_p1(true, cas_failed(0, 2, 1)));
    assert_eq!(line, "accepted 5 2 1");
    assert_eq!(heap.pointers[..2], [5, 2053]);
}

#[test]
fn cas_names_no_foreign_r() {
    assert_eq!(line(&[cas_failed(0, 0, 24)]), "refused 8 0 0");
    assert_eq!(judged(&[16, 4, 0, 0, 0, 0, 0]).0, "refused 5 0 0");
}

/// Source 004, Example 1: one thread at Treiber's stack, whose top is p0.
struct Treiber {
    thread: u32,
}

impl Treiber {
    fn field(&self, tag: u8, numbers: &[u32]) -> Field {
        Field::of(tag, &[&[self.thread], numbers].concat())
    }

    /// The thread's own ptop and pnode.
    fn locals(&self) -> (u32, u32) {
        (owned(self.thread, 0), owned(self.thread, 1))
    }

    fn cas(&self) -> Field {
        let (ptop, pnode) = self.locals();
        self.field(CAS_DONE, &[0, ptop, pnode])
    }

    fn push(&self, cell: u32) -> Vec<Field> {
        let (ptop, pnode) = self.locals();
        vec![
            self.field(MALLOC, &[pnode, cell, 0]),
            self.field(SET_DATA, &[pnode, owned(self.thread, 0)]),
            self.field(COPY, &[ptop, 0]),
            self.field(STORE, &[pnode, 0, ptop]),
            self.cas(),
        ]
    }

    fn begin_pop(&self) -> Vec<Field> {
        let (ptop, pnode) = self.locals();
        vec![
            self.field(COPY, &[ptop, 0]),
            self.field(LOAD, &[pnode, ptop, 0]),
        ]
    }

    fn end_pop(&self) -> Vec<Field> {
        let (ptop, _) = self.locals();
        vec![
            self.cas(),
            self.field(GET_DATA, &[owned(self.thread, 0), ptop]),
            self.field(FREE, &[ptop]),
        ]
    }
}

#[test]
fn cas_of_the_aba_races() {
    let (slow, fast) = (Treiber { thread: 0 }, Treiber { thread: 1 });
    let begin = [fast.push(6), fast.push(5), slow.begin_pop()].concat();
    let alone = [&begin[..], &slow.end_pop()].concat();
    assert_eq!(line(&alone), "accepted 15 2 1");
    let other = [fast.begin_pop(), fast.end_pop(), fast.push(7), fast.push(5)].concat();
    let (line, heap) = judged(&bytes(&[begin, other, slow.end_pop()].concat()));
    assert_eq!(line, "race 27 0 16 192");
    // Without the mark the two sides are equal.
    assert_eq!((heap.pointers[0], heap.pointers[16]), (5, 2053));
}

#[test]
fn the_tally_keeps_the_live_count() {
    let live = |fields: &[Field]| {
        let mut tally = Tally::default();
        Judge::default().run(&bytes(fields), &mut Heap::fresh(), &mut tally);
        tally.live
    };
    assert_eq!(live(&[]), 0);
    assert_eq!(live(&[m(0, 5, 0), m(1, 6, 0)]), 2);
    assert_eq!(live(&[m(0, 5, 0), m(1, 6, 0), free(0)]), 1);
    // A malloc of a freed cell counts, and the free of an unset pointer does not.
    assert_eq!(live(&[m(0, 5, 0), free(0), m(0, 5, 0)]), 1);
    assert_eq!(live(&[m(0, 5, 0), free(1)]), 1);
    // A stop leaves the count before its field.
    assert_eq!(live(&[m(0, 5, 0), m(0, 5, 0)]), 1);
    assert_eq!(live(&[m(0, 5, 0), free(0), free(0)]), 0);
}

/// What is said of p0 and p1 after a malloc into one of them, or into p2.
fn with_set(p: u32, last: Field) -> (String, Heap) {
    judged(&bytes(&[m(p, 0, 0), last]))
}

#[test]
fn two_unset_pointers_are_equal() {
    let holding = [Field::of(SAME_CELL, &[0, 0, 1]), cas_done(0, 1, 3)];
    for field in holding {
        assert_eq!(line(&[field]), "accepted 1 0 0");
    }
    let failing = [Field::of(OTHER_CELL, &[0, 0, 1]), cas_failed(0, 1, 3)];
    for field in failing {
        assert_eq!(line(&[field]), "refused 14 0 0");
    }
    let (line, heap) = with_set(2, cas_done(0, 1, 2));
    assert_eq!(line, "accepted 2 1 1");
    assert_eq!(heap.pointers[..3], [0, UNSET, 0]);
}

#[test]
fn an_unset_pointer_differs_from_every_cell() {
    for set in [0, 1] {
        let line = |field| with_set(set, field).0;
        let failing = [Field::of(SAME_CELL, &[0, 0, 1]), cas_done(0, 1, 3)];
        for field in failing {
            assert_eq!(line(field), "refused 14 1 11");
        }
        let holding = [Field::of(OTHER_CELL, &[0, 0, 1]), cas_failed(0, 1, 3)];
        for field in holding {
            assert_eq!(line(field), "accepted 2 1 1");
        }
    }
}

//! Pages through the crate, row by row beside single lookups; and through the exported call itself, what the crate does not say.
use wentuhoro::{raw, Carried, Found, Page, Refusal, RefusalKind, Row, SlabAddress, Store, Update};

const IDS: usize = 400;
const OBJECTS: u64 = 300;

/// None of them zero.
static KEY_BYTES: [u8; Carried::MOST_KEY] = [0xA5; Carried::MOST_KEY];

/// Each id but every seventh, in no order of slabs and slots, with keys of every length in turn.
fn kiosk() -> Store {
    let row = |id: u64| {
        let location = SlabAddress::from_slab_slot(id as usize * 5 % SlabAddress::SLABS, (OBJECTS - id) as usize).unwrap();
        let key = &KEY_BYTES[..id as usize % (Carried::MOST_KEY + 1)];
        Row::new(id, location).carrying(Carried::of_collection(!id).with_key(key))
    };
    let mut store = Store::new(IDS, OBJECTS as usize).unwrap();
    store.rebuild(&(1..=OBJECTS).filter(|id| id % 7 != 0).map(row).collect::<Vec<_>>()).unwrap();
    store
}

fn refusal<T: std::fmt::Debug>(answer: Result<T, Refusal>) -> (RefusalKind, usize) {
    let refusal = answer.unwrap_err();
    (refusal.kind, refusal.index)
}

/// A page of these ids, which is what single lookups answer, however it is read.
fn asked(store: &Store, ids: &[u64]) -> Page {
    let page = store.get_locations_for_objects(ids).unwrap();
    let singly: Vec<Result<Found, Refusal>> = ids.iter().map(|id| store.find(*id)).collect();
    assert_eq!(page.iter().collect::<Vec<_>>(), singly);
    assert_eq!((page.len(), page.is_empty()), (ids.len(), ids.is_empty()));
    assert!(singly.iter().enumerate().all(|(at, found)| page.get(at) == Some(*found)));
    assert_eq!([ids.len(), ids.len() + 1, usize::MAX].map(|past| page.get(past)), [None; 3]);
    assert_eq!(format!("{page:?}"), format!("{singly:?}"));
    let mut rows = (&page).into_iter();
    for (at, found) in singly.iter().enumerate() {
        assert_eq!((rows.len(), rows.next()), (ids.len() - at, Some(*found)));
    }
    assert_eq!((rows.len(), rows.next(), rows.next()), (0, None, None));
    page
}

#[test]
fn pages_of_every_length() {
    let store = kiosk();
    let ids: Vec<u64> = (0..Page::MOST_IDS as u64).map(|at| at * 89 % OBJECTS).collect();
    (0..=ids.len()).for_each(|count| { asked(&store, &ids[..count]); });
    assert_eq!(asked(&store, &[]), Page::new());
    for count in [257, 258, 512, 65_536, 1 << 20] {
        assert_eq!(refusal(store.get_locations_for_objects(&vec![1; count])), (RefusalKind::TooMany, 0), "{count}");
    }
}

#[test]
fn an_id_comes_as_often_as_it_is_asked_for() {
    let store = kiosk();
    for id in [1, 7, 64, OBJECTS, 0, u64::MAX] {
        for count in [2, Page::MOST_IDS] {
            assert!(asked(&store, &vec![id; count]).iter().all(|found| found == store.find(id)));
        }
    }
}

#[test]
fn an_unknown_id_spoils_no_other_row() {
    let store = kiosk();
    // No id; one that is not held; the capacity and more; and ids that are 1 where a number is cut short.
    let unknown =
        [0, 7, IDS as u64 - 1, IDS as u64, IDS as u64 + 1, (1 << 16) + 1, (1 << 32) + 1, (1 << 56) + 1, (1 << 63) + 1, u64::MAX - 1, u64::MAX];
    for id in unknown {
        for ids in [[1, id, OBJECTS], [OBJECTS, id, 1]] {
            let page = asked(&store, &ids);
            assert_eq!(refusal(page.get(1).unwrap()), (RefusalKind::NoSuchId, 0), "{id}");
            assert!(page.get(0).unwrap().is_ok() && page.get(2).unwrap().is_ok(), "{id}");
        }
    }
    assert!(asked(&store, &unknown).iter().all(|found| found.is_err()));
    let between: Vec<u64> = unknown.iter().flat_map(|id| [1, *id]).chain([1]).collect();
    assert!(asked(&store, &between).iter().enumerate().all(|(at, found)| found.is_err() == (at % 2 == 1)));
}

#[test]
fn a_page_follows_commits_alone() {
    let mut kiosk = Store::new(6, 8).unwrap();
    let ids: Vec<u64> = (0..4).map(|_| kiosk.allocate_object_id().unwrap()).collect();
    let all = [0, 1, 2, 3, 4, 5, 6];
    let keys = |kiosk: &Store| asked(kiosk, &all).iter().map(|found| found.ok().map(|found| found.carried.key.to_vec())).collect::<Vec<_>>();
    let known = |keys: [&[u8]; 4]| [None].into_iter().chain(keys.map(|key| Some(key.to_vec()))).chain([None, None]).collect::<Vec<_>>();
    let store = |id, key| Update::store(id, 3).carrying(Carried::of_collection(7).with_key(key));
    let nothing = vec![None; all.len()];
    assert_eq!(keys(&kiosk), nothing);
    kiosk.offer(&ids.iter().map(|&id| store(id, b"lamp")).collect::<Vec<_>>()).unwrap();
    assert_eq!(keys(&kiosk), nothing);
    kiosk.commit().unwrap();
    assert_eq!(keys(&kiosk), known([b"lamp"; 4]));
    let change = [Update::free(2), store(3, b"other")];
    kiosk.offer(&change).unwrap();
    assert_eq!(keys(&kiosk), known([b"lamp"; 4]));
    kiosk.abandon().unwrap();
    assert_eq!(keys(&kiosk), known([b"lamp"; 4]));
    kiosk.offer(&change).unwrap();
    kiosk.commit().unwrap();
    let mut changed = known([b"lamp", b"", b"other", b"lamp"]);
    changed[2] = None;
    // Pending, free, and held anew without an object.
    assert_eq!(keys(&kiosk), changed);
    kiosk.release().unwrap();
    assert_eq!(keys(&kiosk), changed);
    assert_eq!(kiosk.allocate_object_id(), Ok(2));
    assert_eq!(keys(&kiosk), changed);
}

#[test]
fn the_last_id_and_the_last_slot() {
    let mut store = Store::new(65_536, 65_536).unwrap();
    let row = |id, slab, slot| Row::new(id, SlabAddress::from_slab_slot(slab, slot).unwrap()).carrying(Carried::of_collection(id).with_key(&KEY_BYTES));
    let rows = [row(1, 0, 0), row(65_535, 77, 65_535)];
    store.rebuild(&rows).unwrap();
    let page = asked(&store, &[65_535, 65_536, 1, 131_071]);
    let found = |row: Row<'static>| Some(Ok(Found { location: row.location, carried: row.carried }));
    assert_eq!((page.get(0), page.get(2)), (found(rows[1]), found(rows[0])));
}

/// Where the key of a row is.
fn place(page: &Page, at: usize) -> usize {
    page.get(at).unwrap().unwrap().carried.key.as_ptr() as usize
}

#[test]
fn a_page_stands_when_its_store_changes() {
    let mut store = kiosk();
    let page = asked(&store, &[64, 64, 7, 62]);
    let before = page.clone();
    store.fresh();
    assert_eq!(page, before);
    assert_ne!(page, asked(&store, &[64, 64, 7, 62]));
    assert_eq!(page.get(0).unwrap().unwrap().carried, Carried::of_collection(!64).with_key(&KEY_BYTES));
    // All rows are in one list, and a key is shown where it is.
    assert_eq!([1, 3].map(|at| place(&page, at) - place(&page, 0)), [ROW, 3 * ROW]);
}

#[test]
fn a_page_is_filled_again_where_it_is() {
    let store = kiosk();
    let ids: Vec<u64> = (1..=3 * Page::MOST_IDS as u64).collect();
    let mut page = asked(&store, &ids[..Page::MOST_IDS]);
    let first = place(&page, 0);
    for (from, count) in [(1, 3), (0, 256), (285, 40), (10, 0), (290, 256), (255, 2), (0, 1)] {
        let ids = &ids[from..][..count];
        store.get_locations_into(ids, &mut page).unwrap();
        assert_eq!(page, asked(&store, ids), "{count} from {from}");
        assert!(count == 0 || place(&page, 0) == first);
    }
}

#[test]
fn a_refused_call_leaves_the_page() {
    let store = kiosk();
    let ids: Vec<u64> = (1..=1_000).collect();
    for count in [0, 1, 40, 256] {
        let mut page = asked(&store, &ids[..count]);
        let before = page.clone();
        for too_many in [257, 258, 1_000] {
            assert_eq!(refusal(store.get_locations_into(&ids[..too_many], &mut page)), (RefusalKind::TooMany, 0));
            assert_eq!(page, before, "{count}, then {too_many}");
        }
        store.get_locations_into(&ids[..256], &mut page).unwrap();
        assert_eq!(page, asked(&store, &ids[..256]));
    }
}

/// The bytes of a row.
const ROW: usize = 80;

/// The tables of a store of ids 1 to 4 and two slots in each slab, to lend to the exported call itself. Each has an entry more than is told, so that
/// it can be told to be too long.
#[derive(Clone, Debug, PartialEq)]
struct Lent {
    capacities: [usize; 2],
    id_marks: [u8; 6],
    locations: [u64; 6],
    slot_marks: [u8; 157],
    owners: [u64; 157],
    tallies: [u64; 474],
    carried: Vec<u8>,
    /// As told: of the six tables.
    lengths: [usize; 6],
}

/// The lists of a page, with an entry more each.
#[derive(Clone, Debug, PartialEq)]
struct Lists {
    asked: Vec<u64>,
    numbers: Vec<u8>,
    found: Vec<u64>,
    rows: Vec<u8>,
    /// As told: of the four.
    lengths: [usize; 4],
}

impl Lists {
    /// What is to be written has no zero in it before.
    fn of(ids: &[u64]) -> Lists {
        let (count, asked) = (ids.len(), [ids, &[1]].concat());
        let (numbers, found, rows) = (vec![9; count + 1], vec![!0; count + 1], vec![0xA5; ROW * count + 1]);
        Lists { asked, numbers, found, rows, lengths: [count, count, count, ROW * count] }
    }
}

/// A row of a page: its number, its location, and what it carries.
type Answer = (u8, u64, Vec<u8>);

/// The rows that [`Lent::new`] has.
fn known(id: u64) -> Answer {
    let carried = [&id.to_le_bytes(), &[id as u8][..], &vec![0xDD; id as usize], &vec![0; 71 - id as usize]].concat();
    (0, (id << 56) + 1, carried)
}

fn refused(number: u8) -> Answer {
    (number, 0, vec![0; ROW])
}

impl Lent {
    /// Ids 1, 2 and 3 in slot 1 of slabs 0, 1 and 2, each of the collection of its number, with a key as long.
    fn new() -> Lent {
        let mut lent = Lent {
            capacities: [5, 2],
            id_marks: [9; 6],
            locations: [9; 6],
            slot_marks: [9; 157],
            owners: [9; 157],
            tallies: [9; 474],
            carried: vec![9; ROW * (5 + 256) + 1],
            lengths: [5, 5, 156, 156, 473, ROW * (5 + 256)],
        };
        let ids = [1u64, 2, 3];
        let locations = ids.map(|id| (id << 56) + 1);
        let rows = ids.map(|id| [&id.to_le_bytes(), &id.to_le_bytes()[..], &[0xDD; 64]].concat()).concat();
        let status = unsafe {
            raw::wentuhoro_rebuild(
                5, 2, lent.id_marks.as_mut_ptr(), 5, lent.locations.as_mut_ptr(), 5, lent.slot_marks.as_mut_ptr(), 156,
                lent.owners.as_mut_ptr(), 156, [0; 513].as_mut_ptr(), 513, lent.tallies.as_mut_ptr(), 473,
                lent.carried.as_mut_ptr(), ROW * (5 + 256), ids.as_ptr(), 3, locations.as_ptr(), 3, rows.as_ptr(), rows.len(),
            )
        };
        assert_eq!(status, 0);
        lent
    }

    fn page(&self, lists: &mut Lists) -> u64 {
        let [ids, slots] = self.capacities;
        let [id_marks, locations, slot_marks, owners, tallies, carried] = self.lengths;
        let [asked, numbers, found, rows] = lists.lengths;
        unsafe {
            raw::wentuhoro_lookup_page(
                ids, slots, self.id_marks.as_ptr(), id_marks, self.locations.as_ptr(), locations, self.slot_marks.as_ptr(), slot_marks,
                self.owners.as_ptr(), owners, self.tallies.as_ptr(), tallies, self.carried.as_ptr(), carried, lists.asked.as_ptr(), asked,
                lists.numbers.as_mut_ptr(), numbers, lists.found.as_mut_ptr(), found, lists.rows.as_mut_ptr(), rows,
            )
        }
    }

    /// A single lookup, zeros where it writes nothing.
    fn row(&self, id: u64) -> Answer {
        let [id_marks, locations, slot_marks, owners, tallies, carried] = self.lengths;
        let (mut location, mut row) = (0, vec![0; ROW]);
        let status = unsafe {
            raw::wentuhoro_lookup(
                5, 2, self.id_marks.as_ptr(), id_marks, self.locations.as_ptr(), locations, self.slot_marks.as_ptr(), slot_marks,
                self.owners.as_ptr(), owners, self.tallies.as_ptr(), tallies, self.carried.as_ptr(), carried, id, &mut location, 1,
                row.as_mut_ptr(), row.len(),
            )
        };
        (status as u8, location, row)
    }

    /// The rows of a page that is granted, which are those of single lookups. Past the lists nothing is written.
    fn rows(&self, ids: &[u64]) -> Vec<Answer> {
        let (mut lists, before) = (Lists::of(ids), self.clone());
        assert_eq!((self.page(&mut lists), self), (0, &before));
        assert_eq!((lists.numbers.pop(), lists.found.pop(), lists.rows.pop()), (Some(9), Some(!0), Some(0xA5)));
        let rows = lists.numbers.into_iter().zip(lists.found).zip(lists.rows.chunks(ROW));
        let rows: Vec<Answer> = rows.map(|((number, location), row)| (number, location, row.to_vec())).collect();
        assert_eq!(rows, ids.iter().map(|id| self.row(*id)).collect::<Vec<_>>());
        rows
    }
}

#[test]
fn rows_are_written_whole() {
    let lent = Lent::new();
    assert_eq!(lent.rows(&[]), []);
    assert_eq!(lent.rows(&[3, 4, 3, 0, 1]), [known(3), refused(8), known(3), refused(8), known(1)]);
    assert_eq!(lent.rows(&[2; 256]), vec![known(2); 256]);
    assert_eq!(lent.rows(&[5; 256]), vec![refused(8); 256]);
}

#[test]
fn tables_that_disagree_spoil_one_row() {
    let lent = Lent::new();
    // Of id 2: no such slab, or slot; another's slot, or one that nobody holds.
    let contradict: [fn(&mut Lent); 8] = [
        |lent| lent.locations[2] = 1,
        |lent| lent.locations[2] = (79 << 56) + 1,
        |lent| lent.locations[2] = (2 << 56) + 2,
        |lent| lent.locations[2] = u64::MAX,
        |lent| lent.locations[2] = lent.locations[3],
        |lent| lent.locations[2] = 2 << 56,
        |lent| lent.owners[2 + 1] = 1,
        |lent| lent.slot_marks[2 + 1] = 0,
    ];
    for (at, contradict) in contradict.into_iter().enumerate() {
        let mut lent = lent.clone();
        contradict(&mut lent);
        assert_eq!(lent.rows(&[1, 2, 3, 2, 4, 1]), [known(1), refused(13), known(3), refused(13), refused(8), known(1)], "{at}");
    }
}

#[test]
fn a_wrong_length_comes_before_too_many() {
    for (count, otherwise) in [(0, 0), (1, 0), (3, 0), (256, 0), (257, 15), (1_000, 15)] {
        let answers = |number, change: &dyn Fn(&mut Lent, &mut Lists)| {
            let (mut lent, mut lists) = (Lent::new(), Lists::of(&vec![2; count]));
            change(&mut lent, &mut lists);
            let before = lists.clone();
            assert_eq!(lent.page(&mut lists), number, "{count}");
            assert!(number == 0 || lists == before, "{count}");
        };
        answers(otherwise, &|_, _| ());
        for capacities in [[0, 2], [1, 2], [4, 2], [6, 2], [65_537, 2], [usize::MAX, 2], [5, 0], [5, 1], [5, 3], [5, 65_537], [5, usize::MAX]] {
            answers(1, &|lent, _| lent.capacities = capacities);
        }
        for table in 0..6 {
            answers(1, &|lent, _| lent.lengths[table] = 0);
            answers(1, &|lent, _| lent.lengths[table] -= 1);
            answers(1, &|lent, _| lent.lengths[table] += 1);
        }
        for list in 0..4 {
            answers(1, &|_, lists| lists.lengths[list] += 1);
            if count > 0 {
                answers(1, &|_, lists| lists.lengths[list] -= 1);
                answers(1, &|_, lists| lists.lengths[list] = 0);
            }
        }
        if count > 0 {
            // As many bytes as there are ids, or words.
            answers(1, &|_, lists| lists.lengths[3] = count);
            answers(1, &|_, lists| lists.lengths[3] = 8 * count);
        }
    }
}

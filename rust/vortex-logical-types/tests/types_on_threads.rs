// SPDX-License-Identifier: Apache-2.0
// SPDX-FileCopyrightText: Copyright the Vortex contributors

//! Types, paths, sets, masks and messages that several threads share, clone, drop and hand on. What is expected of many
//! threads is what one thread found.

use std::cell::RefCell;
use std::collections::HashSet;
use std::collections::hash_map::DefaultHasher;
use std::future::{Future, ready};
use std::hash::{Hash, Hasher};
use std::sync::{Barrier, LazyLock, Mutex};
use std::thread;
use vortex_logical_types::{DType, DTypeSession, FieldMask, FieldPath, FieldPathSet, pb};

const THREADS: usize = 8;
const ROUNDS: usize = 100;

static ORDERS: LazyLock<DType> = LazyLock::new(|| {
    dtype(
        "{id=u64, customer={city=utf8?, tags=list(utf8)}?, lines=list({sku=utf8, price=decimal(10,2)?}), \
         by=map(utf8, i32?, keys_sorted=true), either=union(a=i8, b=x.tag[0x00](list(bool)))}",
    )
});

fn dtype(text: &str) -> DType {
    text.parse().unwrap()
}

fn path(text: &str) -> FieldPath {
    text.parse().unwrap()
}

fn hash(it: &impl Hash) -> u64 {
    let mut state = DefaultHasher::new();
    it.hash(&mut state);
    state.finish()
}

fn sorted<'a>(paths: impl Iterator<Item = &'a FieldPath>) -> Vec<String> {
    let mut texts: Vec<_> = paths.map(FieldPath::to_source).collect();
    texts.sort();
    texts
}

/// What the threads share.
struct Shared {
    types: Vec<DType>,
    paths: Vec<FieldPath>,
    set: FieldPathSet,
    mask: FieldMask,
    message: pb::DType,
    session: DTypeSession,
}

impl Shared {
    fn new() -> Self {
        let paths = [
            "customer.city",
            "lines.[].price",
            "lines.[]",
            "id",
            "absent.x",
        ]
        .map(path);
        let others = [
            "{id=u64}",
            "{id=u64?}?",
            "list(list(list({a=i32, b=utf8})))",
        ]
        .map(dtype);
        let mut session = DTypeSession::default();
        session.allow_unknown();
        Self {
            types: [ORDERS.clone(), ORDERS.as_nullable()]
                .into_iter()
                .chain(others)
                .collect(),
            set: paths.iter().collect(),
            mask: FieldMask::Prefix(paths[1].clone()),
            message: ORDERS.to_proto(),
            paths: paths.into(),
            session,
        }
    }

    /// What is found of the shared values, as texts: by clones and drops, comparisons, lookups, and sets of its own.
    fn answers(&self) -> Vec<String> {
        let mut found = Vec::new();
        for dtype in &self.types {
            let (copy, nullable) = (dtype.clone(), dtype.as_nullable());
            let equal = (copy == *dtype, nullable == *dtype);
            found.push(format!("{equal:?} {}", hash(&copy) == hash(dtype)));
            found.push(format!("{:?}", dtype.merge_nullability(&nullable)));
            found.push(format!("{:?}", self.set.unresolved(dtype).len()));
            found.push(format!("{:?}", dtype.project_paths(&self.set)));
            found.push(format!("{:?}", dtype.as_struct_fields_opt()));
            let resolved = self.paths.iter().map(|it| it.resolve(dtype));
            found.extend(resolved.map(|it| format!("{it:?}")));
        }
        let mut own = self.set.clone();
        own.extend(self.paths.iter().map(|it| it.clone().push("own")));
        found.extend(sorted(own.iter()));
        found.extend(sorted(self.set.cover().collect::<Vec<_>>().iter()));
        found.push(format!("{:?}", self.mask.clone().step_into()));
        found.push(format!(
            "{:?}",
            DType::from_proto(&self.message.clone(), &self.session)
        ));
        found
    }
}

#[test]
fn threads_find_what_one_thread_finds() {
    let (shared, start) = (Shared::new(), Barrier::new(THREADS));
    let wanted = shared.answers();
    thread::scope(|scope| {
        for _ in 0..THREADS {
            scope.spawn(|| {
                start.wait();
                for _ in 0..ROUNDS {
                    assert_eq!(shared.answers(), wanted);
                }
            });
        }
    });
    assert_eq!(shared.answers(), wanted);
}

/// Each thread drops what others made, and makes what others drop.
#[test]
fn values_change_hands() {
    let heap = Mutex::new(vec![(ORDERS.clone(), path("customer.city"))]);
    thread::scope(|scope| {
        for most in 1..=THREADS {
            let heap = &heap;
            scope.spawn(move || {
                for round in 0..ROUNDS {
                    let (dtype, path) = heap.lock().unwrap().last().cloned().unwrap();
                    assert_eq!(path.resolve(&dtype).unwrap().to_source(), "utf8?");
                    let dtype = match round % 2 {
                        0 => dtype.as_nullable(),
                        _ => dtype,
                    };
                    let mut heap = heap.lock().unwrap();
                    heap.push((dtype, path));
                    if heap.len() > most {
                        heap.remove(0);
                    }
                }
            });
        }
    });
}

#[test]
fn destructors_of_a_thread_drop_values() {
    thread_local! {
        static KEPT: RefCell<Vec<(DType, FieldPathSet)>> = const { RefCell::new(Vec::new()) };
    }
    for _ in 0..THREADS {
        let set = FieldPathSet::from([path("id")]);
        let ended = thread::spawn(move || {
            KEPT.with_borrow_mut(|kept| kept.push((ORDERS.clone(), set)));
            KEPT.with_borrow(|kept| kept[0].0.is_struct() && kept[0].1.contains(&path("id")))
        });
        assert!(ended.join().unwrap());
    }
}

/// (That it compiles is the test: a task of an executor with several threads has to be `Send`.)
#[test]
fn a_task_may_hold_a_type_over_an_await() {
    fn spawned<F: Future<Output = bool> + Send + 'static>(task: F) -> F {
        task
    }
    drop(spawned(async {
        let (dtype, set) = (ORDERS.clone(), FieldPathSet::from([path("id")]));
        ready(()).await;
        set.unresolved(&dtype).is_empty()
    }));
    let types = Mutex::new(HashSet::new());
    thread::scope(|scope| {
        for _ in 0..THREADS {
            scope.spawn(|| types.lock().unwrap().insert(ORDERS.clone()));
        }
    });
    assert_eq!(types.lock().unwrap().len(), 1);
}
